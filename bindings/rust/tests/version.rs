//! The crate, the header and the library are of one version.

use threshcinch::{library_version, VERSION};

#[test]
fn the_headers() {
    let header = include_str!("../../../include/threshcinch.h");
    let line = header.lines().find_map(|line| line.strip_prefix("#define THRESHCINCH_VERSION "));
    assert_eq!(line, Some(format!("\"{VERSION}\"").as_str()));
}

#[test]
fn the_librarys() {
    assert_eq!(library_version(), VERSION);
}
