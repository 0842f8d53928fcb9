//! Where `progress_archive` of library/progress.sh puts the archives of single crates, and `library/build` the library. Each binary names its own.
fn main() {
    let here = std::env::var("CARGO_MANIFEST_DIR").expect("cargo sets this");
    for folder in ["staticlib", "library"] {
        println!("cargo::rustc-link-search=native={here}/../../target/{folder}");
        println!("cargo::rerun-if-changed={here}/../../target/{folder}");
    }
}
