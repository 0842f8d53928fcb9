//! Finds document 000 and writes, into OUT_DIR, a module line that compiles it where it stands and a
//! recording copy of it, with the feature `clock` a timed copy too. Nothing of document 000 enters the repository.

use std::{
    env, fs,
    path::{Path, PathBuf},
};

/// Every inserted line starts so; without those lines the copy is document 000 again, which a test confirms.
const MARK: &str = "/*probe*/ ";

enum Side {
    Before,
    After,
}

/// A line to add beside the one line of document 000 that equals the anchor.
struct Insertion {
    anchor: &'static str,
    side: Side,
    line: &'static str,
}

const INSERTIONS: [Insertion; 7] = [
    Insertion {
        anchor: "    let floor = T::from(1e-12).unwrap();",
        side: Side::Before,
        line: "probe::on_degrees(&degrees);",
    },
    // No line fits between the two cases, so what the first one divides tells that it was taken.
    Insertion {
        anchor: "            if s > floor { one / s } else { floor }",
        side: Side::Before,
        line: "let one = probe::on_root(one);",
    },
    Insertion {
        anchor: "    let mut v = chebyshev_rayleigh_ritz::<T, Dim<D>>(",
        side: Side::Before,
        line: "probe::on_v0(&v0);",
    },
    Insertion {
        anchor: "        if round + 1 < params.rounds {",
        side: Side::Before,
        line: "probe::on_round(bound, order.iter().map(|&c| b[c * k + c]));",
    },
    Insertion {
        anchor: "    let half = T::from(0.5).unwrap();",
        side: Side::Before,
        line: "probe::on_pass();",
    },
    Insertion { anchor: "            refreshed = true;", side: Side::After, line: "probe::on_refreshed();" },
    Insertion {
        anchor: "                v.par_chunks_mut(k).for_each(|row| row[c] = T::zero());",
        side: Side::Before,
        line: "probe::on_zeroed();",
    },
];

/// Where a lap ends: the time since the last one goes to the stage with that number in document 01. The two projections of a column share
/// numbers, and so do the norms before and after. Two pieces of work have no stage of their own here: v0 goes with the degrees, and the
/// means are subtracted with their sums, since no line between the two stands once.
const fn lap(anchor: &'static str, line: &'static str) -> Insertion {
    Insertion { anchor, side: Side::Before, line }
}

const LAPS: [Insertion; 19] = [
    lap("    let d_out = D;", "clock::begin();"),
    lap(
        "    // 3. Build (column, scaled weight) pairs sorted by column within each row.",
        "clock::lap(clock::DEGREES);",
    ),
    lap("    // 4. Trivial Perron eigenvector v0 = sqrt(d) / ||sqrt(d)||.", "clock::lap(clock::EDGES);"),
    lap(
        "    // 5. Leading nontrivial eigenvectors, flat row-major n x d_out.",
        "clock::lap(clock::DEGREES);",
    ),
    lap("    for round in 0..params.rounds {", "clock::lap(clock::START);"),
    lap(
        "        // Distinct refresh seeds per round, offset past the initial block indices.",
        "clock::lap(clock::FILTER);",
    ),
    lap(
        "            // Norm before the projections, the baseline for collapse detection.",
        "clock::lap(clock::WRITE);",
    ),
    lap("            for _pass in 0..2 {", "clock::lap(clock::NORM);"),
    lap(
        "                // Batched dot products: acc[p] against previous column p, acc[c]",
        "clock::lap(clock::SUBTRACT);",
    ),
    lap("                v.par_chunks_mut(k).enumerate().for_each(|(i, row)| {", "clock::lap(clock::DOTS);"),
    lap("            let norm = column_norm(v, n, k, c);", "clock::lap(clock::SUBTRACT);"),
    lap("            if norm > norm_pre * collapse {", "clock::lap(clock::NORM);"),
    lap("        // Rayleigh-Ritz projection: b = V^T M V.", "clock::lap(clock::WRITE);"),
    lap(
        "        let mut b = chunked_column_reduce(n, k * k, |range, acc: &mut [T]| {",
        "clock::lap(clock::PLAIN);",
    ),
    lap("        // Symmetrize against rounding, M itself is symmetric.", "clock::lap(clock::PRODUCTS);"),
    lap(
        "        if round + 1 < params.rounds {",
        "clock::lap(clock::RITZ); clock::on_round(order.iter().map(|&c| b[c * k + c]));",
    ),
    lap("    // 7. Center each column at zero mean.", "clock::lap(clock::ROTATE);"),
    lap(
        "    // 8. Scale each column independently so all have std params.seed_std.",
        "clock::lap(clock::CENTRE);",
    ),
    lap("    v", "clock::lap(clock::SCALE);"),
];

fn main() {
    let package = PathBuf::from(env::var("CARGO_MANIFEST_DIR").expect("cargo sets this"));
    let out = PathBuf::from(env::var("OUT_DIR").expect("cargo sets this"));
    println!("cargo::rerun-if-env-changed=BHTSNE_SRC");
    println!("cargo::rerun-if-changed=build.rs");
    let clock = env::var_os("CARGO_FEATURE_CLOCK").is_some();

    let document = document_000(&package);
    println!("cargo::rerun-if-changed={}", document.display());
    println!("cargo::rustc-env=DOCUMENT_000={}", document.display());

    let text =
        fs::read_to_string(&document).unwrap_or_else(|fault| panic!("{}: {fault}", document.display()));
    let mut modules = module("spectral", &document);
    let mut add = |name: &str, child: &str, insertions: &[Insertion]| {
        let path = out.join(format!("{name}.rs"));
        write(&path, &copy(&text, insertions, child, &package.join("src").join(format!("{child}.rs"))));
        modules += &module(name, &path);
    };
    add("recording", "probe", &INSERTIONS);
    if clock {
        add("timed", "clock", &LAPS);
    }
    write(&out.join("modules.rs"), &modules);
}

/// BHTSNE_SRC is the folder that holds bhtsne/src; by default it stands beside the repository.
fn document_000(package: &Path) -> PathBuf {
    let folder = match env::var_os("BHTSNE_SRC") {
        Some(given) => PathBuf::from(given),
        None => package.join("../../../shared/docs/src"),
    };
    let document = folder.join("bhtsne/src/tsne/spectral.rs");
    document.canonicalize().unwrap_or_else(|fault| {
        panic!("document 000 is not at {}: {fault}; set BHTSNE_SRC", document.display())
    })
}

fn module(name: &str, path: &Path) -> String {
    format!("#[allow(dead_code)]\n#[path = {path:?}]\nmod {name};\n")
}

/// The text with the insertions, and with a child module that they call.
fn copy(text: &str, insertions: &[Insertion], child: &str, path: &Path) -> String {
    let mut lines: Vec<String> = text.lines().map(str::to_owned).collect();
    for insertion in insertions {
        let at = only_line(&lines, insertion.anchor);
        let place = match insertion.side {
            Side::Before => at,
            Side::After => at + 1,
        };
        lines.insert(place, format!("{MARK}{}", insertion.line));
    }
    lines.push(format!("{MARK}#[path = {path:?}] pub mod {child};"));
    lines.join("\n") + "\n"
}

fn only_line(lines: &[String], anchor: &str) -> usize {
    let found: Vec<usize> = (0..lines.len()).filter(|&i| lines[i] == anchor).collect();
    match found[..] {
        [at] => at,
        _ => panic!("document 000 has this line {} times, not once: {anchor:?}", found.len()),
    }
}

fn write(path: &Path, text: &str) {
    fs::write(path, text).unwrap_or_else(|fault| panic!("{}: {fault}", path.display()));
}
