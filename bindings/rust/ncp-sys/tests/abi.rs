// SPDX-License-Identifier: MIT
//! The structs here are those of `include/abi.txt`.
use ncp_sys::{SIZES, STRUCTS};

#[test]
fn the_structs_are_those_of_the_library() {
    let mut lines = vec!["libncp.so.".to_string() + env!("CARGO_PKG_VERSION_MAJOR")];
    for ((name, fields), size) in STRUCTS.iter().zip(SIZES) {
        lines.push(format!("{name} {size}"));
        lines.extend(fields.iter().map(|(field, offset, size)| format!("{name}.{field} {offset} {size}")));
    }
    let wanted: Vec<_> = include_str!("../../../../include/abi.txt").lines().collect();
    assert_eq!(lines, wanted, "a struct never changes within a soname: give the library a new one, and all bindings its structs");
}
