// SPDX-License-Identifier: MIT
//! `Subnet`.
use crate::refusal::{done, found};
use crate::{front, library, Bits, Buffer, Refusal};
use ncp_sys as sys;

/// The subnet between hosts. For each message the caller decides whether it is delivered, lost, or finds its destination dead; then
/// the subnet answers its sender, and accepts the next one on its link.
///
/// ```
/// use ncp::{Host, Refusal, Subnet, BUFFER};
///
/// let (mut a, mut b, mut subnet) = (Host::new(1, &[2])?, Host::new(2, &[1])?, Subnet::new(&[1, 2])?);
/// let mut buffer = BUFFER;
/// a.reset(2)?;
/// subnet.accept(1, a.next_output(&mut buffer).unwrap())?;
/// b.receive(subnet.deliver(1, 2, 0, &mut buffer).unwrap())?;
/// a.receive(subnet.answer(1, 2, 0, &mut buffer).unwrap())?;
/// assert!(b.is_up(1));
/// # Ok::<(), Refusal>(())
/// ```
#[derive(Debug)]
pub struct Subnet {
    handle: sys::ncp_subnet,
}

// SAFETY: the library has no state besides the subnet, and requires one call at a time: `&mut`.
unsafe impl Send for Subnet {}

impl Drop for Subnet {
    fn drop(&mut self) {
        // SAFETY: the handle is what the library left there.
        unsafe { sys::ncp_subnet_free(&mut self.handle) }
    }
}

impl Subnet {
    /// A subnet between these hosts, each with each other. Refused: `OutOfMemory`.
    pub fn new(hosts: &[u8]) -> Result<Subnet, Refusal> {
        library::judge();
        let mut subnet = Subnet { handle: sys::ncp_subnet { at: core::ptr::null_mut() } };
        // SAFETY: in all calls here the handle has a subnet, or is empty as here; pointers lead to as many bytes as the length passed
        // says, and none overlap.
        done(unsafe { sys::ncp_subnet_new(&mut subnet.handle, hosts.as_ptr(), hosts.len()) })?;
        Ok(subnet)
    }

    /// Takes a message of a host; its destination and link are those of its leader. Refused, in this order: `TooLong`, `ShortBytes`,
    /// `SpareNotZero`, `NotRegular`, `NoHost`, `Occupied` (the last message on this link is not answered yet).
    pub fn accept<'a>(&mut self, from: u8, message: impl Into<Bits<'a>>) -> Result<(), Refusal> {
        let message = message.into();
        done(unsafe { sys::ncp_subnet_accept(&mut self.handle, from, message.bytes().as_ptr(), message.bytes().len(), message.len()) })
    }

    /// Delivers the message on a link, if there is an undelivered one.
    pub fn deliver<'a>(&mut self, from: u8, to: u8, link: u8, buffer: &'a mut Buffer) -> Option<Bits<'a>> {
        let mut len = 0;
        let answer = unsafe { sys::ncp_subnet_deliver(&mut self.handle, from, to, link, buffer.as_mut_ptr(), buffer.len(), &mut len) };
        (answer == sys::NCP_DONE).then(|| front(buffer, len))
    }

    /// Loses the message on a link, and returns whether there was an undelivered one.
    pub fn lose(&mut self, from: u8, to: u8, link: u8) -> bool {
        found(unsafe { sys::ncp_subnet_lose(&mut self.handle, from, to, link) }) == Ok(true)
    }

    /// Lets the message on a link find its destination dead, and returns whether there was an undelivered one.
    pub fn dead(&mut self, from: u8, to: u8, link: u8) -> bool {
        found(unsafe { sys::ncp_subnet_dead(&mut self.handle, from, to, link) }) == Ok(true)
    }

    /// The answer to the sender about the message on a link, once it was delivered or cannot be.
    pub fn answer<'a>(&mut self, from: u8, to: u8, link: u8, buffer: &'a mut Buffer) -> Option<Bits<'a>> {
        let mut len = 0;
        let answer = unsafe { sys::ncp_subnet_answer(&mut self.handle, from, to, link, buffer.as_mut_ptr(), buffer.len(), &mut len) };
        (answer == sys::NCP_DONE).then(|| front(buffer, len))
    }
}
