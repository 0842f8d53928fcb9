//! Which version this crate is of, and which the library that it was linked with.

use std::ffi::CStr;

use crate::ffi;

/// This crate's version, and that of the library and of the header that it was written for.
pub const VERSION: &str = env!("CARGO_PKG_VERSION");

/// The version of the library that this crate was linked with: [`VERSION`], unless `THRESHCINCH_LIB` named another one.
pub fn library_version() -> &'static str {
    // SAFETY: the library has the address of a text that ends with a zero byte and is there and the same as long as the program is.
    let text = unsafe { CStr::from_ptr(ffi::threshcinch_version) };
    text.to_str().unwrap_or_default()
}
