// SPDX-License-Identifier: MIT
//! Whether the library that was linked is the one that this crate is for.
use core::ffi::CStr;
use core::fmt;
use ncp_sys as sys;

const VERSION: &str = env!("CARGO_PKG_VERSION");

/// How a library differs from this crate.
enum Differs<'a> {
    Version(&'a str),
    Sizes,
}

impl fmt::Display for Differs<'_> {
    fn fmt(&self, f: &mut fmt::Formatter<'_>) -> fmt::Result {
        match self {
            Differs::Version(version) => write!(f, "libncp is version {version}, and the crate ncp is for {VERSION}"),
            Differs::Sizes => write!(f, "libncp has structs of other sizes than the crate ncp, though both are version {VERSION}"),
        }
    }
}

fn judged<'a>(version: &'a str, mut sizes: impl Iterator<Item = u32>) -> Option<Differs<'a>> {
    if version != VERSION {
        Some(Differs::Version(version))
    } else if sys::SIZES.iter().any(|size| sizes.next() != Some(*size)) {
        Some(Differs::Sizes)
    } else {
        None
    }
}

/// Panics if the library is another one: what it writes would not fit.
pub(crate) fn judge() {
    // SAFETY: the library returns static numbers, terminated by 0; none is read after the first that differs.
    let sizes = (0..sys::SIZES.len()).map(|place| unsafe { *sys::ncp_sizes().add(place) });
    if let Some(differs) = judged(version(), sizes) {
        panic!("{differs}");
    }
}

/// The version of the library.
pub fn version() -> &'static str {
    // SAFETY: the library returns a static string.
    unsafe { CStr::from_ptr(sys::ncp_version()) }.to_str().unwrap_or_default()
}

#[cfg(test)]
mod tests {
    extern crate std;
    use super::judged;
    use std::string::ToString;

    fn said(version: &str, sizes: &[u32]) -> Option<std::string::String> {
        judged(version, sizes.iter().copied()).map(|it| it.to_string())
    }

    #[test]
    fn another_library_is_refused() {
        let sizes = [8, 8, 28, 4, 28, 12, 11, 28, 10, 0];
        assert_eq!(said("2.0.0", &sizes), None);
        assert_eq!(said("1.1.0", &sizes).as_deref(), Some("libncp is version 1.1.0, and the crate ncp is for 2.0.0"));
        let other = "libncp has structs of other sizes than the crate ncp, though both are version 2.0.0";
        for sizes in [&[8, 8, 12, 4, 28, 12, 11, 28, 10, 0][..], &[8, 8, 28, 4, 28, 12, 11, 28, 0], &[8, 8, 28, 4, 28, 12, 11, 28, 10, 4]] {
            assert_eq!(said("2.0.0", sizes).as_deref(), Some(other));
        }
    }
}
