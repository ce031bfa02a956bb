// SPDX-License-Identifier: MIT
//! `Stream`.
use crate::{At, Bits, Connection, Host, Refusal, BUFFER};

/// The most bits of a text that a host takes at once.
const MOST_BITS: usize = 8 * BUFFER.len();

/// A connection that tracks the remaining space: it gives what fits, and allows what fits.
///
/// ```
/// use ncp::{At, Host, Refusal, Stream};
///
/// let mut host = Host::new(1, &[2])?;
/// host.receive(&[0, 2, 0, 0, 0, 8, 0, 1, 0, 12])?; // an RST: the RRP makes the host be up
/// # host.next_output(&mut ncp::BUFFER.clone());
/// let line = Stream::send(&mut host, At { peer: 2, local: 3, remote: 2 }, 8, 40)?;
/// assert_eq!(line.give(&mut host, b"hello", 0)?, 0); // it is not open yet
/// // host 2 asks to receive, on link 7
/// host.receive(&[0, 2, 0, 0, 0, 8, 0, 10, 0, 1, 0, 0, 0, 2, 0, 0, 0, 3, 7])?;
/// assert_eq!(line.give(&mut host, b"seven letters", 0)?, 40);
/// assert_eq!(line.space(&host), 0);
/// # Ok::<(), Refusal>(())
/// ```
#[derive(Clone, Copy, Debug, PartialEq, Eq)]
pub struct Stream {
    at: At,
    messages: u16,
}

impl Stream {
    /// Asks to send, with `size` bits in a byte, and room for `room` bits: also accepts a request of the peer. Refused as
    /// [`Host::ask_send`].
    pub fn send(host: &mut Host, at: At, size: u8, room: u32) -> Result<Stream, Refusal> {
        host.ask_send(at, size, room)?;
        Ok(Stream { at, messages: 0 })
    }

    /// Asks to receive, with room for `room` bits, and keeps `messages` messages allowed while there is space. Refused as
    /// [`Host::ask_receive`].
    pub fn receive(host: &mut Host, at: At, room: u32, messages: u16) -> Result<Stream, Refusal> {
        host.ask_receive(at, room)?;
        Ok(Stream { at, messages })
    }

    /// The connection.
    pub fn at(&self) -> At {
        self.at
    }

    /// The state of the connection while it is open.
    fn open(&self, host: &Host) -> Option<Connection> {
        host.state(self.at).ok().filter(|_| host.is_open(self.at))
    }

    /// How many bits more a sender may be given, or a receiver may allow, now: 0 unless it is open.
    pub fn space(&self, host: &Host) -> u32 {
        let Some(it) = self.open(host) else { return 0 };
        let outstanding = if it.sends { 0 } else { it.bits };
        host.room(self.at).map_or(0, |room| room.saturating_sub(it.stored).saturating_sub(outstanding))
    }

    /// Gives what fits of a text, from one of its bits on, in whole bytes of the connection, and returns how many bits these are: 0
    /// before it is open. Refused, in this order: `ShortBytes`, `UnknownPeer`, `NoEntry`, `WrongEnd`, `Closing`, `NotWhole`.
    pub fn give<'a>(&self, host: &mut Host, text: impl Into<Bits<'a>>, from: usize) -> Result<usize, Refusal> {
        let text = text.into();
        if text.len() > 8 * text.bytes().len() {
            return Err(Refusal::ShortBytes);
        }
        let it = host.state(self.at)?;
        let size = it.size.max(1) as usize;
        if !it.sends {
            return Err(Refusal::WrongEnd);
        }
        if it.leaving || it.left {
            return Err(Refusal::Closing);
        }
        if text.len().saturating_sub(from) % size != 0 {
            return Err(Refusal::NotWhole);
        }
        let (mut given, mut buffer) = (from, BUFFER);
        while given < text.len() {
            let fits = (text.len() - given).min(self.space(host) as usize).min(MOST_BITS) / size * size;
            if fits == 0 {
                break;
            }
            host.give(self.at, cut(text, given, fits, &mut buffer))?;
            given += fits;
        }
        Ok(given.saturating_sub(from))
    }

    /// Allows the sender what fits: the remaining space, and messages up to the number that is kept allowed. Returns how many bits: 0
    /// before it is open, and while too many commands are queued. Refused: `WrongEnd`.
    pub fn allow(&self, host: &mut Host) -> Result<u32, Refusal> {
        let Some(it) = self.open(host) else { return Ok(0) };
        let bits = self.space(host);
        if it.sends {
            return Err(Refusal::WrongEnd);
        }
        if bits == 0 && it.messages > 0 {
            return Ok(0);
        }
        match host.allocate(self.at, self.messages.saturating_sub(it.messages), bits) {
            Ok(()) => Ok(bits),
            Err(Refusal::QueueFull) => Ok(0),
            Err(refusal) => Err(refusal),
        }
    }
}

/// Copies a number of bits of a text, from one bit on, to the front of a buffer.
fn cut<'a>(text: Bits<'_>, from: usize, len: usize, buffer: &'a mut [u8; BUFFER.len()]) -> Bits<'a> {
    let bytes = text.bytes();
    for (place, byte) in buffer[..len.div_ceil(8)].iter_mut().enumerate() {
        let first = from / 8 + place;
        let two = u16::from(bytes[first]) << 8 | u16::from(bytes.get(first + 1).copied().unwrap_or(0));
        *byte = (two << (from % 8) >> 8) as u8;
    }
    if len % 8 != 0 {
        buffer[len / 8] &= 0xff << (8 - len % 8);
    }
    Bits::new(&buffer[..len.div_ceil(8)], len)
}
