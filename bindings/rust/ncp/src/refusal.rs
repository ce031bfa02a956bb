// SPDX-License-Identifier: MIT
//! `Refusal`.
use core::fmt;
use ncp_sys as sys;

/// Why a call was refused, which then changed nothing: the names of `ncp.h`.
#[derive(Clone, Copy, Debug, PartialEq, Eq)]
#[non_exhaustive]
pub enum Refusal {
    /// The host has no such peer.
    UnknownPeer,
    /// The host is not up with the peer.
    NotUp,
    /// A socket is odd that has to be even, or even that has to be odd: those that send are odd.
    BadSex,
    /// A byte has 0 bits.
    BadSize,
    /// A room has not 1 to 65,536 bits.
    BadRoom,
    /// There is no connection between these sockets, and no request for one.
    NoEntry,
    /// The connection was asked for here before.
    AlreadyAsked,
    /// This side has closed the connection, and it is not over yet.
    Closing,
    /// The connection is not open.
    NotOpen,
    /// The call is for the other end: of a sender at a receiver, or of a receiver at a sender.
    WrongEnd,
    /// The text is no whole number of bytes of the size that the connection has.
    NotWhole,
    /// The last reset, echo or call for allocations has had no answer.
    Busy,
    /// The text is longer than the room that is left for it.
    NoRoom,
    /// More is allowed than there is room for, or than a counter counts.
    TooMuch,
    /// 64 connections with the peer were asked for here.
    TableFull,
    /// 256 commands, or more, are queued for the peer.
    QueueFull,
    /// There is no memory for it.
    OutOfMemory,
    /// A buffer is too short: never in Python.
    ShortBuffer,
    /// There are more than 8,192 bits.
    TooLong,
    /// There are fewer bytes than the bits take.
    ShortBytes,
    /// A spare bit of the last byte is set.
    SpareNotZero,
    /// The peers are not one to eight, or not distinct, or the host itself is one of them.
    BadPeers,
    /// The message is shorter than a leader, or not of type 0.
    NotRegular,
    /// The message is not from one of the subnet's hosts to another.
    NoHost,
    /// The last message on this link is unanswered.
    Occupied,
    /// No host is saved as these bytes.
    NotAHost,
    /// A host is saved so by another version of the library.
    OtherVersion,
    /// A number that the header does not name.
    Unnamed(u32),
}

impl Refusal {
    fn of(number: u32) -> Refusal {
        match number {
            1 => Refusal::UnknownPeer,
            2 => Refusal::NotUp,
            3 => Refusal::BadSex,
            4 => Refusal::BadSize,
            5 => Refusal::BadRoom,
            6 => Refusal::NoEntry,
            7 => Refusal::AlreadyAsked,
            8 => Refusal::Closing,
            9 => Refusal::NotOpen,
            10 => Refusal::WrongEnd,
            11 => Refusal::NotWhole,
            12 => Refusal::Busy,
            13 => Refusal::NoRoom,
            14 => Refusal::TooMuch,
            15 => Refusal::TableFull,
            16 => Refusal::QueueFull,
            17 | 66 | 83 => Refusal::OutOfMemory,
            34 => Refusal::ShortBuffer,
            41 => Refusal::TooLong,
            42 => Refusal::ShortBytes,
            43 => Refusal::SpareNotZero,
            65 => Refusal::BadPeers,
            73 => Refusal::NotRegular,
            74 => Refusal::NoHost,
            75 => Refusal::Occupied,
            81 => Refusal::NotAHost,
            82 => Refusal::OtherVersion,
            _ => Refusal::Unnamed(number),
        }
    }
}

impl fmt::Display for Refusal {
    fn fmt(&self, f: &mut fmt::Formatter<'_>) -> fmt::Result {
        fmt::Debug::fmt(self, f)
    }
}

impl core::error::Error for Refusal {}

/// Done, or why not.
pub(crate) fn done(answer: u32) -> Result<(), Refusal> {
    if answer == sys::NCP_DONE {
        Ok(())
    } else {
        Err(Refusal::of(answer))
    }
}

/// Whether there is something, or the refusal.
pub(crate) fn found(answer: u32) -> Result<bool, Refusal> {
    if answer == sys::NCP_NOTHING {
        Ok(false)
    } else {
        done(answer).map(|()| true)
    }
}

#[cfg(test)]
mod tests {
    extern crate std;
    use super::Refusal;
    use core::ffi::CStr;
    use std::string::ToString;

    // What a safe caller is never answered.
    const OF_C: [&str; 4] = ["NoHost", "NoPointer", "Nothing", "NoSubnet"];

    #[test]
    fn each_number_has_the_name_of_the_library() {
        for number in 1..256 {
            let word = unsafe { CStr::from_ptr(ncp_sys::ncp_word(number)) }.to_str().unwrap();
            match Refusal::of(number) {
                Refusal::Unnamed(_) => assert!(word.is_empty() || OF_C.contains(&word), "{number} is {word}"),
                refusal => assert_eq!(refusal.to_string(), word),
            }
        }
    }
}
