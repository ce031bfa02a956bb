// SPDX-License-Identifier: MIT
//! A host of the ARPANET with its one to eight peers, and a subnet between hosts, over the proved library of `include/ncp.h`.
//!
//! That header documents each call and its refusals, in order; `docs/EMBEDDING.md` how to drive a host: messages from the IMP go
//! into [`Host::receive`], messages to it come from [`Host::next_output`], and the calls of a user are methods.
//!
//! ```
//! use ncp::{Host, Refusal, BUFFER};
//!
//! let mut host = Host::new(1, &[2])?;
//! host.reset(2)?;
//! let mut buffer = BUFFER;
//! let message = host.next_output(&mut buffer).unwrap();
//! assert_eq!(message.bytes(), [0, 2, 0, 0, 0, 8, 0, 1, 0, 12]); // an RST for host 2
//! assert_eq!(host.reset(2), Err(Refusal::Busy));
//! # Ok::<(), Refusal>(())
//! ```
//!
//! A library of another version, or with structs of other sizes, causes a panic with this reason, at the first host.
//!
//! [`Watch`] returns the events of a peer; a [`Stream`] is a connection that tracks the remaining space.
//!
//! A host is `Send`, and can be read through a shared reference; it is not shared by threads.
#![no_std]
#![warn(missing_docs)]

mod events;
mod library;
mod refusal;
mod stream;
mod subnet;

use core::cell::UnsafeCell;
use ncp_sys as sys;
pub use ncp_sys::{ncp_changes as Changes, ncp_connection as Connection, ncp_peer_counts as Counted, ncp_ignored_counts as Discarded, ncp_flags as Flags, ncp_err_command as Noted};
pub use events::{Event, Watch};
use events::Deliveries;
pub use library::version;
pub use refusal::Refusal;
use refusal::{done, found};
pub use stream::Stream;
pub use subnet::Subnet;

/// A buffer that has room for each message and each text.
pub type Buffer = [u8; sys::NCP_LONGEST_MESSAGE];

/// An empty buffer.
pub const BUFFER: Buffer = [0; sys::NCP_LONGEST_MESSAGE];

/// A message or a text: a number of bits, from the most significant bit of the first byte. Spare bits of the last byte are zero.
#[derive(Clone, Copy, Debug, PartialEq, Eq)]
pub struct Bits<'a> {
    bytes: &'a [u8],
    len: usize,
}

impl<'a> Bits<'a> {
    /// The first `len` bits of bytes: the call that takes them refuses what is no such number of bits.
    pub fn new(bytes: &'a [u8], len: usize) -> Bits<'a> {
        Bits { bytes, len }
    }

    /// The bytes: as many as hold the bits.
    pub fn bytes(&self) -> &'a [u8] {
        self.bytes
    }

    /// How many bits there are.
    pub fn len(&self) -> usize {
        self.len
    }

    /// Whether there is no bit.
    pub fn is_empty(&self) -> bool {
        self.len == 0
    }
}

impl<'a> From<&'a [u8]> for Bits<'a> {
    fn from(bytes: &'a [u8]) -> Bits<'a> {
        Bits::new(bytes, 8 * bytes.len())
    }
}

impl<'a, const N: usize> From<&'a [u8; N]> for Bits<'a> {
    fn from(bytes: &'a [u8; N]) -> Bits<'a> {
        Bits::from(&bytes[..])
    }
}

/// A connection: the peer, the socket here and the socket there. A socket that sends is odd, and one that receives even.
#[derive(Clone, Copy, Debug, PartialEq, Eq)]
pub struct At {
    /// The host at the other end.
    pub peer: u8,
    /// The socket here.
    pub local: u32,
    /// The socket there.
    pub remote: u32,
}

/// The result of a message that arrived.
#[derive(Clone, Copy, Debug, PartialEq, Eq)]
pub enum What {
    /// Fewer than 32 bits.
    Short,
    /// Of a type that a host ignores: its number.
    Other(u32),
    /// From a host that is no peer.
    Unknown,
    /// An unexpected answer.
    Stray,
    /// The answer to the message that was sent on its link: its type, 5 for RFNM, 7 for Destination Dead, 9 for Incomplete.
    Answered(u32),
    /// No regular message: why, as `ncp.h` has it.
    Fault(u32),
    /// Link 1, or over 71.
    WrongLink,
    /// A control message whose bytes have not 8 bits.
    WrongSize,
    /// The number of whole commands that were read.
    Control(u32),
    /// A text: 1 admitted, 2 late, 3 wrong size, 4 over, 5 not open.
    Text(u32),
    /// A text while the host is not up with the peer.
    NotUp,
}

/// The result of a message that arrived, with the host and the link in its leader, and for a text the sockets, here and there, of the
/// connection that its link belongs to, or 0 and 0.
#[derive(Clone, Copy, Debug, PartialEq, Eq)]
pub struct Arrived {
    /// What became of it.
    pub what: What,
    /// Of a text the socket here, or 0.
    pub local: u32,
    /// And the socket there.
    pub remote: u32,
    /// Of a control message how many of the commands that were read were ERRs.
    pub errors: u32,
    /// And how many RSTs: each ended all connections with the peer.
    pub resets: u32,
    /// The host that its leader names.
    pub peer: u8,
    /// And its link.
    pub link: u8,
    /// The type in its leader, regardless of the result: 1, 8 and 10 are an error in a leader, an error in a message, and a reset of the
    /// interface (BBN 1822, section 3).
    pub kind: u8,
}

impl Arrived {
    fn of(told: sys::ncp_arrived) -> Arrived {
        let detail = told.detail;
        let what = match told.what {
            1 => What::Short,
            2 => What::Other(detail),
            3 => What::Unknown,
            4 => What::Stray,
            5 => What::Answered(detail),
            6 => What::Fault(detail),
            7 => What::WrongLink,
            8 => What::WrongSize,
            9 => What::Control(detail),
            10 => What::Text(detail),
            _ => What::NotUp,
        };
        let sys::ncp_arrived { local, remote, errors, resets, peer, link, kind, .. } = told;
        Arrived { what, local, remote, errors, resets, peer, link, kind }
    }
}

/// What of the messages to a peer no RFNM has acknowledged: one that is unanswered, or is to be sent again. A message that is held since
/// its destination was dead does not count.
#[derive(Clone, Copy, Debug, PartialEq, Eq)]
pub enum Unacknowledged {
    /// No message.
    Nothing,
    /// A message, but no RST and no RRP.
    Message,
    /// A message with an RST or an RRP.
    Reset,
}

/// A host, down with each of its peers at first.
#[derive(Debug)]
pub struct Host {
    // Each call of the library takes the host out of the handle and puts it back, also one that only reads.
    handle: UnsafeCell<sys::ncp_host>,
    // What a watch has not seen yet.
    delivered: Deliveries,
}

const RFNM: u8 = 5;

// SAFETY: the library has no state besides the host, and requires one call at a time: `&mut`, and `&` without `Sync`.
unsafe impl Send for Host {}

impl Drop for Host {
    fn drop(&mut self) {
        // SAFETY: the handle is what the library left there.
        unsafe { sys::ncp_free(self.handle.get_mut()) }
    }
}

impl Host {
    // A handle that has no host yet.
    fn none() -> Host {
        library::judge();
        Host { handle: UnsafeCell::new(sys::ncp_host { at: core::ptr::null_mut() }), delivered: Deliveries::default() }
    }

    /// Refused, in this order: `BadPeers` (not one to eight, not distinct, or one is `me`), `OutOfMemory`.
    pub fn new(me: u8, peers: &[u8]) -> Result<Host, Refusal> {
        let host = Host::none();
        // SAFETY: in all calls here the handle has a host, or is empty as here, and no other call has it at the time; pointers lead
        // to as many bytes as the length passed with them, and none overlap.
        done(unsafe { sys::ncp_new(host.handle.get(), me, peers.as_ptr(), peers.len()) })?;
        Ok(host)
    }

    /// Another host in the same state. The two are independent from then on. It is no `Clone`, since it can be refused:
    /// `OutOfMemory`.
    pub fn try_clone(&self) -> Result<Host, Refusal> {
        let mut copy = Host::none();
        copy.delivered = self.delivered.clone();
        done(unsafe { sys::ncp_copy(self.handle.get(), copy.handle.get()) })?;
        Ok(copy)
    }

    /// How many bytes [`Host::save`] writes. Refused: `OutOfMemory`.
    pub fn saved_len(&self) -> Result<usize, Refusal> {
        let mut size = 0;
        match unsafe { sys::ncp_save(self.handle.get(), core::ptr::null_mut(), 0, &mut size) } {
            sys::NCP_SHORT_BUFFER => Ok(size),
            answer => done(answer).map(|()| size),
        }
    }

    /// The host as bytes, at the front of the buffer. Refused: `OutOfMemory`, `ShortBuffer` (fewer than [`Host::saved_len`]).
    pub fn save<'a>(&self, buffer: &'a mut [u8]) -> Result<&'a [u8], Refusal> {
        let mut size = 0;
        done(unsafe { sys::ncp_save(self.handle.get(), buffer.as_mut_ptr(), buffer.len(), &mut size) })?;
        Ok(&buffer[..size])
    }

    /// Loads a host from saved bytes, which may be untrusted; those that [`Host::save`] made of any host are accepted. Refused:
    /// `NotAHost`, `OtherVersion`, `OutOfMemory`.
    pub fn load(bytes: &[u8]) -> Result<Host, Refusal> {
        let host = Host::none();
        done(unsafe { sys::ncp_load(host.handle.get(), bytes.as_ptr(), bytes.len()) })?;
        Ok(host)
    }

    /// Gives the host a message that arrived from its IMP, with its leader. Refused, in this order: `TooLong`, `ShortBytes`,
    /// `SpareNotZero`.
    pub fn receive<'a>(&mut self, message: impl Into<Bits<'a>>) -> Result<Arrived, Refusal> {
        let (message, mut told) = (message.into(), sys::ncp_arrived::default());
        let may_deliver = self.is_rfnm_of_text(message);
        done(unsafe { sys::ncp_receive(self.handle.get(), message.bytes.as_ptr(), message.bytes.len(), message.len, &mut told) })?;
        let arrived = Arrived::of(told);
        if may_deliver && arrived.what == What::Answered(RFNM.into()) {
            self.delivered.note(arrived.peer, arrived.link);
        }
        Ok(arrived)
    }

    // Whether it is an RFNM on a link on which a connection sends.
    fn is_rfnm_of_text(&self, message: Bits<'_>) -> bool {
        match message.bytes {
            [kind, peer, link, _, ..] => kind & 15 == RFNM && matches!(self.pair_on(*peer, true, *link), Ok(Some(_))),
            _ => false,
        }
    }

    /// The next message to send, with its leader, if one is ready.
    pub fn next_output<'a>(&mut self, buffer: &'a mut Buffer) -> Option<Bits<'a>> {
        let mut len = 0;
        let answer = unsafe { sys::ncp_next_output(self.handle.get(), buffer.as_mut_ptr(), buffer.len(), &mut len) };
        (answer == sys::NCP_DONE).then(|| front(buffer, len))
    }

    /// Ends all connections with a peer, and queues an RST once the data links to it are quiet: so a host comes up. Refused, in this order:
    /// `UnknownPeer`, `Busy` (a reset is pending).
    pub fn reset(&mut self, peer: u8) -> Result<(), Refusal> {
        done(unsafe { sys::ncp_reset(self.handle.get(), peer) })
    }

    /// Asks to send from an odd socket here to an even one of the peer, in bytes of `size` bits, with room for `room` bits that are queued,
    /// 1 to 65,536. Refused, in this order: `UnknownPeer`, `NotUp`, `BadSex`, `BadSize`, `BadRoom`, `AlreadyAsked`, `Closing`, `TableFull`,
    /// `QueueFull`, `OutOfMemory`.
    pub fn ask_send(&mut self, at: At, size: u8, room: u32) -> Result<(), Refusal> {
        done(unsafe { sys::ncp_ask_send(self.handle.get(), at.peer, at.local, at.remote, size, room) })
    }

    /// Asks to receive at an even socket here from an odd one of the peer, with room for `room` bits that are held, 1 to 65,536. Refused, in
    /// this order: `UnknownPeer`, `NotUp`, `BadSex`, `BadRoom`, `AlreadyAsked`, `Closing`, `TableFull`, `QueueFull`, `OutOfMemory`.
    pub fn ask_receive(&mut self, at: At, room: u32) -> Result<(), Refusal> {
        done(unsafe { sys::ncp_ask_receive(self.handle.get(), at.peer, at.local, at.remote, room) })
    }

    /// Queues text to send, whole bytes of the connection's size: all of it, or nothing. Refused, in this order: `TooLong`, `ShortBytes`,
    /// `SpareNotZero`, `UnknownPeer`, `NotUp`, `NoEntry`, `Closing`, `NotOpen`, `WrongEnd`, `NotWhole`, `NoRoom`.
    pub fn give<'a>(&mut self, at: At, text: impl Into<Bits<'a>>) -> Result<(), Refusal> {
        let text = text.into();
        done(unsafe { sys::ncp_give(self.handle.get(), at.peer, at.local, at.remote, text.bytes.as_ptr(), text.bytes.len(), text.len) })
    }

    /// Held text, the oldest first: as many whole bytes of the connection's size as are held and fit one message, `bytes` of them at most.
    /// Refused, in this order: `UnknownPeer`, `NotUp`, `NoEntry`, `Closing`, `NotOpen`, `WrongEnd`.
    pub fn take<'a>(&mut self, at: At, bytes: u32, buffer: &'a mut Buffer) -> Result<Bits<'a>, Refusal> {
        let mut len = 0;
        done(unsafe { sys::ncp_take(self.handle.get(), at.peer, at.local, at.remote, bytes, buffer.as_mut_ptr(), buffer.len(), &mut len) })?;
        Ok(front(buffer, len))
    }

    /// Allows the sender this many more messages and bits. Refused, in this order: `UnknownPeer`, `NotUp`, `NoEntry`, `Closing`,
    /// `NotOpen`, `WrongEnd`, `TooMuch`, `QueueFull`.
    pub fn allocate(&mut self, at: At, messages: u16, bits: u32) -> Result<(), Refusal> {
        done(unsafe { sys::ncp_allocate(self.handle.get(), at.peer, at.local, at.remote, messages, bits) })
    }

    /// Asks the sender to give back 128ths of its messages and of its bits. Refused, in this order: `UnknownPeer`, `NotUp`, `NoEntry`,
    /// `Closing`, `NotOpen`, `WrongEnd`, `Busy` (the last one has had no RET), `QueueFull`.
    pub fn call_back(&mut self, at: At, messages: u8, bits: u8) -> Result<(), Refusal> {
        done(unsafe { sys::ncp_call_back(self.handle.get(), at.peer, at.local, at.remote, messages, bits) })
    }

    /// Interrupts the other side. Refused, in this order: `UnknownPeer`, `NotUp`, `NoEntry`, `Closing`, `NotOpen`, `QueueFull`.
    pub fn interrupt(&mut self, at: At) -> Result<(), Refusal> {
        done(unsafe { sys::ncp_interrupt(self.handle.get(), at.peer, at.local, at.remote) })
    }

    /// Closes this side of a connection, or refuses what the peer asks, and drops what is stored. Refused, in this order: `UnknownPeer`,
    /// `NotUp`, `NoEntry`, `Closing`, `QueueFull`.
    pub fn close(&mut self, at: At) -> Result<(), Refusal> {
        done(unsafe { sys::ncp_close(self.handle.get(), at.peer, at.local, at.remote) })
    }

    /// Asks the peer to echo a byte. Refused, in this order: `UnknownPeer`, `NotUp`, `Busy` (the last one has had no ERP), `QueueFull`.
    pub fn echo(&mut self, peer: u8, byte: u8) -> Result<(), Refusal> {
        done(unsafe { sys::ncp_echo(self.handle.get(), peer, byte) })
    }

    /// Makes the messages to a peer ready again that are held since their destination was dead. Refused: `UnknownPeer`.
    pub fn wake(&mut self, peer: u8) -> Result<(), Refusal> {
        done(unsafe { sys::ncp_wake(self.handle.get(), peer) })
    }

    /// Makes each unanswered message to a peer ready again, for an IMP that restarted and lost its messages. One that had been delivered
    /// arrives twice then. Refused: `UnknownPeer`.
    pub fn restart(&mut self, peer: u8) -> Result<(), Refusal> {
        done(unsafe { sys::ncp_restart(self.handle.get(), peer) })
    }

    /// What is known of a connection. Refused, in this order: `UnknownPeer`, `NoEntry`.
    pub fn state(&self, at: At) -> Result<Connection, Refusal> {
        let mut told = Connection::default();
        done(unsafe { sys::ncp_state(self.handle.get(), at.peer, at.local, at.remote, &mut told) })?;
        Ok(told)
    }

    /// What changed of a connection since `seen`, which then is how it is now: `Connection::default()` before the first look. Refused:
    /// `UnknownPeer`.
    pub fn changes(&self, at: At, seen: &mut Connection) -> Result<Changes, Refusal> {
        let mut told = Changes::default();
        done(unsafe { sys::ncp_changes(self.handle.get(), at.peer, at.local, at.remote, seen, &mut told) })?;
        Ok(told)
    }

    /// The connection with a peer at an index, from 0, in the order of the sockets here; none past the end. One with `heard` and without
    /// `asked` is a request of the peer. Refused: `UnknownPeer`.
    pub fn connection_at(&self, peer: u8, place: u32) -> Result<Option<(At, Connection)>, Refusal> {
        let (mut local, mut remote, mut told) = (0, 0, Connection::default());
        let answer = unsafe { sys::ncp_connection_at(self.handle.get(), peer, place, &mut local, &mut remote, &mut told) };
        Ok(found(answer)?.then_some((At { peer, local, remote }, told)))
    }

    /// For how many bits a connection has room in all. Refused, in this order: `UnknownPeer`, `NoEntry`.
    pub fn room(&self, at: At) -> Result<u32, Refusal> {
        let mut bits = 0;
        done(unsafe { sys::ncp_room(self.handle.get(), at.peer, at.local, at.remote, &mut bits) })?;
        Ok(bits)
    }

    /// The connection that a link belongs to, if there is one: of the end that sends here, or of the one that receives. Refused:
    /// `UnknownPeer`.
    pub fn pair_on(&self, peer: u8, sends: bool, link: u8) -> Result<Option<At>, Refusal> {
        let (mut local, mut remote) = (0, 0);
        let answer = unsafe { sys::ncp_pair_on(self.handle.get(), peer, sends, link, &mut local, &mut remote) };
        Ok(found(answer)?.then_some(At { peer, local, remote }))
    }

    /// Whether the message to a peer on a link is held since its destination was dead, so that a wake is wanted.
    pub fn is_held(&self, peer: u8, link: u8) -> bool {
        unsafe { sys::ncp_is_held(self.handle.get(), peer, link) }
    }

    /// Whether both requests were made, and this side is not closing.
    pub fn is_open(&self, at: At) -> bool {
        unsafe { sys::ncp_is_open(self.handle.get(), at.peer, at.local, at.remote) }
    }

    /// The flags for a peer: the host is up with it if none is set. Refused: `UnknownPeer`.
    pub fn phase(&self, peer: u8) -> Result<Flags, Refusal> {
        let mut told = Flags::default();
        done(unsafe { sys::ncp_phase(self.handle.get(), peer, &mut told) })?;
        Ok(told)
    }

    /// Whether the host is up with a peer.
    pub fn is_up(&self, peer: u8) -> bool {
        unsafe { sys::ncp_is_up(self.handle.get(), peer) }
    }

    /// The byte of the last ERP that answered an echo, if one did. Refused: `UnknownPeer`.
    pub fn echoed(&self, peer: u8) -> Result<Option<u8>, Refusal> {
        let mut told = 0;
        let answer = unsafe { sys::ncp_echoed(self.handle.get(), peer, &mut told) };
        Ok(found(answer)?.then_some(told))
    }

    /// The ERR from a peer at an index: of the last sixteen, the oldest at 0. Refused: `UnknownPeer`.
    pub fn error(&self, peer: u8, place: u32) -> Result<Option<Noted>, Refusal> {
        let mut told = Noted::default();
        let answer = unsafe { sys::ncp_error(self.handle.get(), peer, place, &mut told) };
        Ok(found(answer)?.then_some(told))
    }

    /// How many of what arrived from a peer were of no use. Refused: `UnknownPeer`.
    pub fn counts(&self, peer: u8) -> Result<Counted, Refusal> {
        let mut told = Counted::default();
        done(unsafe { sys::ncp_counts(self.handle.get(), peer, &mut told) })?;
        Ok(told)
    }

    /// How many messages were of no peer.
    pub fn ignored(&self) -> Discarded {
        let mut told = Discarded::default();
        unsafe { sys::ncp_ignored(self.handle.get(), &mut told) };
        told
    }

    /// The bytes of the command at an index of those that are queued for a peer, the next one at 0.
    pub fn waiting<'a>(&self, peer: u8, place: u32, buffer: &'a mut [u8; sys::NCP_LONGEST_COMMAND]) -> Option<&'a [u8]> {
        let mut len = 0;
        let answer = unsafe { sys::ncp_waiting(self.handle.get(), peer, place, buffer.as_mut_ptr(), buffer.len(), &mut len) };
        (answer == sys::NCP_DONE).then(|| &buffer[..len])
    }

    /// The message to a peer on a link that has had no RFNM.
    pub fn kept<'a>(&self, peer: u8, link: u8, buffer: &'a mut Buffer) -> Option<Bits<'a>> {
        let mut len = 0;
        let answer = unsafe { sys::ncp_kept(self.handle.get(), peer, link, buffer.as_mut_ptr(), buffer.len(), &mut len) };
        (answer == sys::NCP_DONE).then(|| front(buffer, len))
    }

    /// What of the messages to a peer is unacknowledged, so that one may arrive twice after a restart of the IMP. [`Host::restart`] does not
    /// change it. Refused: `UnknownPeer`.
    pub fn unacknowledged(&self, peer: u8) -> Result<Unacknowledged, Refusal> {
        let mut what = 0;
        done(unsafe { sys::ncp_unacknowledged(self.handle.get(), peer, &mut what) })?;
        Ok(match what {
            sys::NCP_UNACKNOWLEDGED_NOTHING => Unacknowledged::Nothing,
            sys::NCP_UNACKNOWLEDGED_MESSAGE => Unacknowledged::Message,
            _ => Unacknowledged::Reset,
        })
    }
}

fn front(buffer: &Buffer, len: usize) -> Bits<'_> {
    Bits::new(&buffer[..len.div_ceil(8)], len)
}

/// The command at an index, from 0, of a control message that arrived, as its bytes, if there is one. So a server reads who asks:
/// in an RTS (1) and an STR (2) bytes 1 to 4 are the socket of the peer, and 5 to 8 the one here.
pub fn command<'a, 'b>(message: impl Into<Bits<'a>>, place: u32, buffer: &'b mut [u8; sys::NCP_LONGEST_COMMAND]) -> Option<&'b [u8]> {
    let (message, mut len) = (message.into(), 0);
    // SAFETY: as in the calls of a host.
    let answer = unsafe {
        sys::ncp_command(message.bytes.as_ptr(), message.bytes.len(), message.len, place, buffer.as_mut_ptr(), buffer.len(), &mut len)
    };
    (answer == sys::NCP_DONE).then(|| &buffer[..len])
}
