// SPDX-License-Identifier: MIT
//! `Watch` and `Event`: what happens with a peer, event by event.
use crate::{At, Changes, Connection, Host};
use core::mem::take;

/// How many connections are watched at most: twice as many as a host has with a peer, so that those that ended since the last look and
/// those that began have room.
const WATCHED: usize = 256;
const LAST_LINK: u8 = 71;
const MAX_PEERS: usize = 8;

/// Something that happened with a peer, or with a connection.
#[derive(Clone, Copy, Debug, PartialEq, Eq)]
#[non_exhaustive]
pub enum Event {
    /// The host is up with the peer.
    Up,
    /// It is not up any more.
    Down,
    /// An echo was answered with this byte, which is another than before, or the first.
    Echoed(u8),
    /// A message found its destination dead: it is held until [`Host::wake`].
    Held,
    /// It ended, and this side had closed it first.
    Closed(At),
    /// It ended before the peer had asked: the peer refused the local request, or there was a reset.
    Refused(At),
    /// It ended, and the peer had asked: the peer closed it first, or there was a reset.
    Ended(At),
    /// The peer asks, and this side has not.
    Asks(At),
    /// Both requests met.
    Opened(At),
    /// More text is held.
    Text(At),
    /// More messages may be sent, or more bits.
    Allowed(At),
    /// A text had its RFNM.
    Delivered(At),
    /// Interrupts arrived.
    Interrupted(At),
    /// The peer closes it: its CLS arrived.
    Closes(At),
}

/// What was seen of a connection, and what of it was not returned yet.
#[derive(Clone, Copy, Debug)]
struct Seen {
    at: At,
    connection: Connection,
    due: Changes,
}

/// Whether something is due, and the event that it is then.
type Due<'a> = (&'a mut bool, fn(At) -> Event);

impl Seen {
    /// The link on which this end sends, if it has one.
    fn sending_link(&self) -> Option<u8> {
        (self.connection.sends && self.connection.link > 0).then_some(self.connection.link)
    }

    /// The next change that was not returned yet. What was delivered was so before an end.
    fn next(&mut self) -> Option<Event> {
        let Seen { at, due, .. } = self;
        let has_ended = due.closed || due.refused || due.ended;
        if has_ended && take(&mut due.delivered) {
            return Some(Event::Delivered(*at));
        }
        let each: [Due; 10] = [
            (&mut due.closed, Event::Closed),
            (&mut due.refused, Event::Refused),
            (&mut due.ended, Event::Ended),
            (&mut due.asks, Event::Asks),
            (&mut due.opened, Event::Opened),
            (&mut due.text, Event::Text),
            (&mut due.allowed, Event::Allowed),
            (&mut due.delivered, Event::Delivered),
            (&mut due.interrupted, Event::Interrupted),
            (&mut due.closes, Event::Closes),
        ];
        each.into_iter().find_map(|(is_due, event)| take(is_due).then(|| event(*at)))
    }
}

/// The last observed state of a peer, some 16,000 bytes, without other allocations.
///
/// Go through its events after each message that arrived and after each call, in a loop that asks again after each one: so reads
/// and gives in the loop are seen too. Each text that had its RFNM is `Delivered`, also if the next one was already sent; of
/// anything else that changed twice in between only the end is seen. A host has one watch for each peer.
///
/// ```
/// use ncp::{Event, Host, Refusal, Watch, BUFFER};
///
/// let (mut host, mut watch, mut buffer) = (Host::new(1, &[2])?, Watch::new(2), BUFFER);
/// host.reset(2)?;
/// while let Some(message) = host.next_output(&mut buffer) {
///     assert_eq!(message.bytes()[1], 2); // it goes to host 2
/// }
/// host.receive(&[5, 2, 0, 0])?; // its RFNM
/// host.receive(&[0, 2, 0, 0, 0, 8, 0, 1, 0, 13])?; // an RRP
/// while let Some(event) = watch.next_event(&mut host) {
///     assert_eq!(event, Event::Up);
/// }
/// # Ok::<(), Refusal>(())
/// ```
#[derive(Clone, Debug)]
pub struct Watch {
    peer: u8,
    is_up: bool,
    is_held: bool,
    echoed: Option<u8>,
    /// What happened with the peer and was not returned yet.
    due: [Option<Event>; 3],
    seen: [Seen; WATCHED],
    count: usize,
}

impl Watch {
    /// Of the peer nothing was seen yet.
    pub fn new(peer: u8) -> Watch {
        let none = Seen { at: At { peer, local: 0, remote: 0 }, connection: Connection::default(), due: Changes::default() };
        Watch { peer, is_up: false, is_held: false, echoed: None, due: [None; 3], seen: [none; WATCHED], count: 0 }
    }

    /// The next thing that happened, if there is one. It looks again once all that was seen is returned.
    pub fn next_event(&mut self, host: &mut Host) -> Option<Event> {
        if let Some(event) = self.next_due() {
            return Some(event);
        }
        self.look_at_peer(host);
        self.look_at_connections(host);
        self.next_due()
    }

    fn next_due(&mut self) -> Option<Event> {
        let of_peer = self.due.iter_mut().find_map(Option::take);
        of_peer.or_else(|| self.seen[..self.count].iter_mut().find_map(Seen::next))
    }

    fn look_at_peer(&mut self, host: &Host) {
        let is_up = host.is_up(self.peer);
        let is_held = (0..=LAST_LINK).any(|link| host.is_held(self.peer, link));
        let echoed = host.echoed(self.peer).unwrap_or(None);
        let turned = if is_up { Event::Up } else { Event::Down };
        self.due = [
            (is_up != self.is_up).then_some(turned),
            echoed.filter(|_| echoed != self.echoed).map(Event::Echoed),
            (is_held && !self.is_held).then_some(Event::Held),
        ];
        (self.is_up, self.is_held, self.echoed) = (is_up, is_held, echoed);
    }

    /// One that no longer exists is watched until its end was returned.
    fn look_at_connections(&mut self, host: &mut Host) {
        self.forget_what_ended();
        for place in 0.. {
            let Ok(Some((at, _))) = host.connection_at(self.peer, place) else { break };
            self.watch(at);
        }
        let mut delivered = host.delivered.take(self.peer);
        for seen in &mut self.seen[..self.count] {
            let before = seen.sending_link();
            seen.due = host.changes(seen.at, &mut seen.connection).unwrap_or_default();
            if let Some(link) = before.or(seen.sending_link()) {
                seen.due.delivered |= delivered >> link & 1 == 1;
                delivered &= !(1 << link);
            }
        }
    }

    fn forget_what_ended(&mut self) {
        let mut left = 0;
        for place in 0..self.count {
            if self.seen[place].connection.asked || self.seen[place].connection.heard {
                self.seen[left] = self.seen[place];
                left += 1;
            }
        }
        self.count = left;
    }

    fn watch(&mut self, at: At) {
        if self.count < WATCHED && !self.seen[..self.count].iter().any(|seen| seen.at == at) {
            self.seen[self.count] = Seen { at, connection: Connection::default(), due: Changes::default() };
            self.count += 1;
        }
    }
}

/// The links on which texts were delivered since a watch looked, as bits, of each peer that had one.
#[derive(Clone, Debug, Default)]
pub(crate) struct Deliveries {
    links: [(u8, u128); MAX_PEERS],
    count: usize,
}

impl Deliveries {
    fn of_peer(&mut self, peer: u8) -> Option<&mut u128> {
        self.links[..self.count].iter_mut().find(|it| it.0 == peer).map(|it| &mut it.1)
    }

    /// Notes a text that was delivered. A host has no more peers than there is room for.
    pub(crate) fn note(&mut self, peer: u8, link: u8) {
        if self.of_peer(peer).is_none() && self.count < MAX_PEERS {
            self.links[self.count] = (peer, 0);
            self.count += 1;
        }
        if let Some(links) = self.of_peer(peer) {
            *links |= 1 << link;
        }
    }

    fn take(&mut self, peer: u8) -> u128 {
        self.of_peer(peer).map_or(0, take)
    }
}
