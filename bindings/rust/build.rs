//! Links libthreshcinch.a: from the folder that THRESHCINCH_LIB names (the one that holds libthreshcinch.a and libthreshcinch.so, for the
//! Python binding too), or from the repository's target/library.

use std::path::PathBuf;

const ARCHIVE: &str = "libthreshcinch.a";

fn main() {
    println!("cargo::rerun-if-env-changed=THRESHCINCH_LIB");
    match folder_of_archive() {
        Ok(folder) => {
            println!("cargo::rerun-if-changed={}", folder.join(ARCHIVE).display());
            println!("cargo::rustc-link-search=native={}", folder.display());
            println!("cargo::rustc-link-lib=static=threshcinch");
        }
        Err(why) => println!("cargo::error={why}"),
    }
}

fn folder_of_archive() -> Result<PathBuf, String> {
    let target = |what: &str| std::env::var(format!("CARGO_CFG_TARGET_{what}")).unwrap_or_default();
    // The second test is for x32, which has x86-64's instructions and other records.
    if target("ARCH") != "x86_64" || target("POINTER_WIDTH") != "64" {
        return Err(format!("needs x86-64: the library is compiled for it alone, and this target is {}", target("ARCH")));
    }
    let given = std::env::var_os("THRESHCINCH_LIB").filter(|folder| !folder.is_empty());
    let folder = match &given {
        Some(folder) => PathBuf::from(folder),
        None => PathBuf::from(std::env::var_os("CARGO_MANIFEST_DIR").unwrap_or_default()).join("../../target/library"),
    };
    if given.is_some() && !folder.is_dir() {
        return Err(format!("THRESHCINCH_LIB must name the folder that holds {ARCHIVE}, and {} is none", folder.display()));
    }
    if !folder.join(ARCHIVE).is_file() {
        return Err(format!("{ARCHIVE} is not in {}: run library/build, or name its folder in THRESHCINCH_LIB", folder.display()));
    }
    // A path that cargo is told must not depend on the folder that it is read from.
    folder.canonicalize().map_err(|why| format!("{}: {why}", folder.display()))
}
