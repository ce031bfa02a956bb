// SPDX-License-Identifier: MIT
//! `include/ncp.h`, function by function: that header documents each, and the obligations of its caller.
#![no_std]
#![allow(non_camel_case_types)]

use core::ffi::{c_char, c_void};
use core::mem::{offset_of, size_of};

pub const NCP_DONE: u32 = 0;
pub const NCP_SHORT_BUFFER: u32 = 34;
pub const NCP_NOTHING: u32 = 35;
pub const NCP_UNACKNOWLEDGED_NOTHING: u32 = 0;
pub const NCP_UNACKNOWLEDGED_MESSAGE: u32 = 1;
pub const NCP_UNACKNOWLEDGED_RESET: u32 = 2;
pub const NCP_LONGEST_MESSAGE: usize = 1024;
pub const NCP_LONGEST_COMMAND: usize = 12;

/// Makes the structs of the header, in its order, with what is known of their layout.
macro_rules! structs {
    ($($(#[$of:meta])* $name:ident { $($field:ident: $kind:ty,)* })*) => {
        $(
            #[repr(C)]
            $(#[$of])*
            pub struct $name {
                $(pub $field: $kind,)*
            }
        )*

        /// The sizes of the structs in bytes, as `ncp_sizes` has them, with the 0 after the last.
        pub const SIZES: &[u32] = &[$(size_of::<$name>() as u32,)* 0];

        /// The structs by their names, with their fields: their names, offsets and sizes.
        pub const STRUCTS: &[(&str, &[(&str, usize, usize)])] = &[
            $((stringify!($name), &[$((stringify!($field), offset_of!($name, $field), size_of::<$kind>())),*]),)*
        ];
    };
}

structs! {
    #[derive(Debug)]
    ncp_host {
        at: *mut c_void,
    }

    #[derive(Debug)]
    ncp_subnet {
        at: *mut c_void,
    }

    #[derive(Clone, Copy, Debug, Default, PartialEq, Eq)]
    ncp_arrived {
        what: u32,
        detail: u32,
        local: u32,
        remote: u32,
        errors: u32,
        resets: u32,
        peer: u8,
        link: u8,
        kind: u8,
    }

    #[derive(Clone, Copy, Debug, Default, PartialEq, Eq)]
    ncp_flags {
        down: bool,
        want: bool,
        owe: bool,
        wait: bool,
    }

    #[derive(Clone, Copy, Debug, Default, PartialEq, Eq)]
    ncp_peer_counts {
        stray: u32,
        faults: u32,
        wrong_link: u32,
        wrong_size: u32,
        not_up: u32,
        late: u32,
        over: u32,
    }

    #[derive(Clone, Copy, Debug, Default, PartialEq, Eq)]
    ncp_ignored_counts {
        short_bits: u32,
        other: u32,
        unknown: u32,
    }

    #[derive(Clone, Copy, Debug, Default, PartialEq, Eq)]
    ncp_err_command {
        code: u8,
        bytes: [u8; 10],
    }

    #[derive(Clone, Copy, Debug, Default, PartialEq, Eq)]
    ncp_connection {
        bits: u32,
        stored: u32,
        interrupts: u32,
        messages: u16,
        link: u8,
        size: u8,
        sends: bool,
        asked: bool,
        heard: bool,
        opened: bool,
        leaving: bool,
        left: bool,
        cls: bool,
        busy: bool,
        recall: bool,
    }

    #[derive(Clone, Copy, Debug, Default, PartialEq, Eq)]
    ncp_changes {
        closed: bool,
        refused: bool,
        ended: bool,
        asks: bool,
        opened: bool,
        text: bool,
        allowed: bool,
        delivered: bool,
        interrupted: bool,
        closes: bool,
    }
}

/// The name that `ncp_peer_counts` had before; the next major version drops it.
#[deprecated(note = "ncp_peer_counts")]
pub type ncp_counted = ncp_peer_counts;
/// The name that `ncp_ignored_counts` had before; the next major version drops it.
#[deprecated(note = "ncp_ignored_counts")]
pub type ncp_discarded = ncp_ignored_counts;
/// The name that `ncp_err_command` had before; the next major version drops it.
#[deprecated(note = "ncp_err_command")]
pub type ncp_noted = ncp_err_command;

extern "C" {
    pub fn ncp_is_made(host: *const ncp_host) -> bool;
    pub fn ncp_new(host: *mut ncp_host, me: u8, peers: *const u8, count: usize) -> u32;
    pub fn ncp_copy(host: *mut ncp_host, copy: *mut ncp_host) -> u32;
    pub fn ncp_save(host: *mut ncp_host, out: *mut u8, len: usize, size: *mut usize) -> u32;
    pub fn ncp_load(host: *mut ncp_host, bytes: *const u8, len: usize) -> u32;
    pub fn ncp_free(host: *mut ncp_host);
    pub fn ncp_receive(host: *mut ncp_host, bytes: *const u8, len: usize, bits: usize, arrived: *mut ncp_arrived) -> u32;
    pub fn ncp_next_output(host: *mut ncp_host, out: *mut u8, len: usize, bits: *mut usize) -> u32;
    pub fn ncp_reset(host: *mut ncp_host, peer: u8) -> u32;
    pub fn ncp_ask_send(host: *mut ncp_host, peer: u8, local: u32, remote: u32, size: u8, room: u32) -> u32;
    pub fn ncp_ask_receive(host: *mut ncp_host, peer: u8, local: u32, remote: u32, room: u32) -> u32;
    pub fn ncp_give(host: *mut ncp_host, peer: u8, local: u32, remote: u32, bytes: *const u8, len: usize, bits: usize) -> u32;
    pub fn ncp_take(host: *mut ncp_host, peer: u8, local: u32, remote: u32, bytes: u32, out: *mut u8, len: usize, bits: *mut usize) -> u32;
    pub fn ncp_allocate(host: *mut ncp_host, peer: u8, local: u32, remote: u32, messages: u16, bits: u32) -> u32;
    pub fn ncp_call_back(host: *mut ncp_host, peer: u8, local: u32, remote: u32, fm: u8, fb: u8) -> u32;
    pub fn ncp_interrupt(host: *mut ncp_host, peer: u8, local: u32, remote: u32) -> u32;
    pub fn ncp_close(host: *mut ncp_host, peer: u8, local: u32, remote: u32) -> u32;
    pub fn ncp_echo(host: *mut ncp_host, peer: u8, byte: u8) -> u32;
    pub fn ncp_wake(host: *mut ncp_host, peer: u8) -> u32;
    pub fn ncp_restart(host: *mut ncp_host, peer: u8) -> u32;
    pub fn ncp_state(host: *mut ncp_host, peer: u8, local: u32, remote: u32, out: *mut ncp_connection) -> u32;
    pub fn ncp_changes(host: *mut ncp_host, peer: u8, local: u32, remote: u32, seen: *mut ncp_connection, out: *mut ncp_changes) -> u32;
    pub fn ncp_connection_at(host: *mut ncp_host, peer: u8, place: u32, local: *mut u32, remote: *mut u32, out: *mut ncp_connection) -> u32;
    pub fn ncp_room(host: *mut ncp_host, peer: u8, local: u32, remote: u32, bits: *mut u32) -> u32;
    pub fn ncp_pair_on(host: *mut ncp_host, peer: u8, sends: bool, link: u8, local: *mut u32, remote: *mut u32) -> u32;
    pub fn ncp_is_held(host: *mut ncp_host, peer: u8, link: u8) -> bool;
    pub fn ncp_is_open(host: *mut ncp_host, peer: u8, local: u32, remote: u32) -> bool;
    pub fn ncp_phase(host: *mut ncp_host, peer: u8, out: *mut ncp_flags) -> u32;
    pub fn ncp_is_up(host: *mut ncp_host, peer: u8) -> bool;
    pub fn ncp_echoed(host: *mut ncp_host, peer: u8, byte: *mut u8) -> u32;
    pub fn ncp_error(host: *mut ncp_host, peer: u8, place: u32, out: *mut ncp_err_command) -> u32;
    pub fn ncp_counts(host: *mut ncp_host, peer: u8, out: *mut ncp_peer_counts) -> u32;
    pub fn ncp_ignored(host: *mut ncp_host, out: *mut ncp_ignored_counts) -> u32;
    pub fn ncp_waiting(host: *mut ncp_host, peer: u8, place: u32, out: *mut u8, len: usize, bytes: *mut usize) -> u32;
    pub fn ncp_kept(host: *mut ncp_host, peer: u8, link: u8, out: *mut u8, len: usize, bits: *mut usize) -> u32;
    pub fn ncp_unacknowledged(host: *mut ncp_host, peer: u8, what: *mut u32) -> u32;
    pub fn ncp_command(bytes: *const u8, len: usize, bits: usize, place: u32, out: *mut u8, room: usize, size: *mut usize) -> u32;
    pub fn ncp_subnet_new(subnet: *mut ncp_subnet, hosts: *const u8, count: usize) -> u32;
    pub fn ncp_subnet_free(subnet: *mut ncp_subnet);
    pub fn ncp_subnet_accept(subnet: *mut ncp_subnet, from: u8, bytes: *const u8, len: usize, bits: usize) -> u32;
    pub fn ncp_subnet_deliver(subnet: *mut ncp_subnet, from: u8, to: u8, link: u8, out: *mut u8, len: usize, bits: *mut usize) -> u32;
    pub fn ncp_subnet_lose(subnet: *mut ncp_subnet, from: u8, to: u8, link: u8) -> u32;
    pub fn ncp_subnet_dead(subnet: *mut ncp_subnet, from: u8, to: u8, link: u8) -> u32;
    pub fn ncp_subnet_answer(subnet: *mut ncp_subnet, from: u8, to: u8, link: u8, out: *mut u8, len: usize, bits: *mut usize) -> u32;
    pub fn ncp_name(code: u32, out: *mut c_char, len: usize, bytes: *mut usize) -> u32;
    pub fn ncp_word(code: u32) -> *const c_char;
    pub fn ncp_version() -> *const c_char;
    pub fn ncp_sizes() -> *const u32;
}
