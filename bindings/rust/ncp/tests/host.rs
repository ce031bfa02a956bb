// SPDX-License-Identifier: MIT
//! Refusals by their names, arrivals and values, and a host that moves to another thread.
use ncp::{Arrived, At, Bits, Changes, Connection, Event, Host, Refusal, Stream, Subnet, Unacknowledged, Watch, What, BUFFER};

const RST: [u8; 10] = [0, 2, 0, 0, 0, 8, 0, 1, 0, 12];
const RFNM: [u8; 4] = [5, 2, 0, 0];
const AT: At = At { peer: 2, local: 3, remote: 2 };

/// A host that is up with host 2, with nothing queued for it.
fn up() -> Host {
    let mut host = Host::new(1, &[2]).unwrap();
    host.receive(&RST).unwrap();
    assert!(host.next_output(&mut BUFFER.clone()).is_some());
    host.receive(&RFNM).unwrap();
    host
}

#[test]
fn refusals_have_their_names() {
    let mut host = Host::new(1, &[2]).unwrap();
    assert_eq!(Host::new(1, &[1]).err(), Some(Refusal::BadPeers));
    assert_eq!(Host::new(1, &[]).err(), Some(Refusal::BadPeers));
    assert_eq!(host.reset(3), Err(Refusal::UnknownPeer));
    assert_eq!(host.ask_send(AT, 8, 64), Err(Refusal::NotUp));
    assert_eq!(host.state(AT), Err(Refusal::NoEntry));
    assert_eq!(host.echoed(2), Ok(None));
    assert_eq!(host.error(2, 0), Ok(None));
    assert_eq!(host.error(3, 0), Err(Refusal::UnknownPeer));
    assert_eq!(host.receive(Bits::new(&[0; 1025], 8193)), Err(Refusal::TooLong));
    assert_eq!(host.receive(Bits::new(&[0], 9)), Err(Refusal::ShortBytes));
    assert_eq!(host.receive(Bits::new(&[1], 7)), Err(Refusal::SpareNotZero));
    assert_eq!(Refusal::NoEntry.to_string(), "NoEntry");
}

#[test]
fn a_copy_is_another_host() {
    let mut host = up();
    host.ask_receive(At { local: 2, remote: 3, ..AT }, 64).unwrap();
    let mut copy = host.try_clone().unwrap();
    assert_eq!(copy.connection_at(2, 0), host.connection_at(2, 0));
    // The peer refuses there what it was asked: here it is still asked.
    copy.receive(&[0, 2, 0, 0, 0, 8, 0, 9, 0, 3, 0, 0, 0, 3, 0, 0, 0, 2]).unwrap();
    assert_eq!(copy.connection_at(2, 0), Ok(None));
    assert!(host.connection_at(2, 0).unwrap().is_some());
    drop(host);
    // An RTS and a CLS.
    let out = [0, 2, 0, 0, 0, 8, 0, 19, 0, 1, 0, 0, 0, 2, 0, 0, 0, 3, 2, 3, 0, 0, 0, 2, 0, 0, 0, 3];
    assert_eq!(copy.next_output(&mut BUFFER.clone()), Some(Bits::from(&out)));
}

#[test]
fn a_host_is_saved_and_loaded() {
    let mut host = up();
    host.ask_receive(At { local: 2, remote: 3, ..AT }, 64).unwrap();
    let mut buffer = vec![0; host.saved_len().unwrap() + 1];
    let len = buffer.len() - 1;
    assert_eq!(host.save(&mut buffer[1..len]), Err(Refusal::ShortBuffer));
    assert_eq!(buffer, vec![0; len + 1]);
    let saved = host.save(&mut buffer).unwrap();
    assert_eq!(saved.len(), len);
    let again = Host::load(saved).unwrap();
    assert_eq!(again.save(&mut vec![0; len]), Ok(saved));
    assert_eq!(again.connection_at(2, 0), host.connection_at(2, 0));
    assert_eq!(Host::load(&[]).err(), Some(Refusal::NotAHost));
    assert_eq!(Host::load(&saved[1..]).err(), Some(Refusal::NotAHost));
    assert_eq!(Host::load(b"NCP host\x02").err(), Some(Refusal::OtherVersion));
}

/// A message of this text that arrives from a peer.
fn arrive(host: &mut Host, peer: u8, link: u8, text: &[u8]) -> Arrived {
    let len = text.len() as u16;
    let head = [0, peer, link, 0, 0, 8, (len >> 8) as u8, len as u8, 0];
    host.receive(&[&head, text].concat()[..]).unwrap()
}

/// A request from a peer: an RTS or STR with two sockets, and a byte more.
fn request(host: &mut Host, peer: u8, code: u8, there: u8, here: u8, last: u8) {
    arrive(host, peer, 0, &[code, 0, 0, 0, there, 0, 0, 0, here, last]);
}

/// Brings a host up with a peer, and fills all that it keeps for it: 128 connections, half of them asked for by each, with full
/// rooms; 16 errors; a control message that is held; and 512 commands after it.
fn fill(host: &mut Host, peer: u8, room: u32) {
    let mut buffer = BUFFER;
    host.reset(peer).unwrap();
    assert!(host.next_output(&mut buffer).is_some());
    host.receive(&[5, peer, 0, 0]).unwrap();
    arrive(host, peer, 0, &[13]);
    let at = |local: u8, remote: u8| At { peer, local: local.into(), remote: remote.into() };
    for k in (0..64).step_by(2) {
        host.ask_send(at(k + 1, k), 8, room).unwrap();
        host.ask_receive(at(k, k + 1), room).unwrap();
        request(host, peer, 1, k, k + 1, 2 + k / 2);
        request(host, peer, 2, k + 1, k, 8);
    }
    (0..64).for_each(|k| request(host, peer, 2, 2 * k + 1, 254, 8));
    for k in (0..64).step_by(2) {
        (0..8).for_each(|_| host.give(at(k + 1, k), &[0; 1024]).unwrap());
        assert_eq!(host.give(at(k + 1, k), &[0]), Err(Refusal::NoRoom));
        host.allocate(at(k, k + 1), 9, room).unwrap();
        let link = host.state(at(k, k + 1)).unwrap().link;
        vec![0; room as usize / 8].chunks(1000).for_each(|text| assert!(matches!(arrive(host, peer, link, text).what, What::Text { .. })));
        assert_eq!(host.state(at(k, k + 1)).unwrap().stored, room);
    }
    for _ in 0..17 {
        arrive(host, peer, 0, &[11, 3, 0, 0, 0, 0, 0, 0, 0, 0, 0, 0]);
    }
    while let Some(message) = host.next_output(&mut buffer) {
        if message.bytes()[2] == 0 {
            host.receive(&[7, peer, 0, 0]).unwrap();
        }
    }
    while host.waiting(peer, 511, &mut [0; 12]).is_none() {
        arrive(host, peer, 0, &[9, 65]);
    }
}

#[test]
fn a_host_at_every_limit_is_saved_and_loaded() {
    let mut host = Host::new(1, &[2, 3, 4, 5, 6, 7, 8, 9]).unwrap();
    for peer in 2..10 {
        fill(&mut host, peer, 65536);
        assert!(host.connection_at(peer, 127).unwrap().is_some() && host.error(peer, 15).unwrap().is_some());
        assert!(host.is_held(peer, 0) && host.is_up(peer));
    }
    let mut buffer = vec![0; host.saved_len().unwrap()];
    let saved = host.save(&mut buffer).unwrap();
    let again = Host::load(saved).unwrap();
    assert_eq!(again.save(&mut vec![0; saved.len()]), Ok(saved));
}

#[test]
fn what_arrived_and_what_is_told() {
    let mut host = Host::new(1, &[2]).unwrap();
    let mut buffer = BUFFER;
    host.reset(2).unwrap();
    assert_eq!(host.next_output(&mut buffer), Some(Bits::from(&RST)));
    assert_eq!(host.next_output(&mut BUFFER.clone()), None);
    assert_eq!(host.kept(2, 0, &mut buffer), Some(Bits::from(&RST)));
    let none = Arrived { what: What::Short, local: 0, remote: 0, errors: 0, resets: 0, peer: 0, link: 0, kind: 0 };
    assert_eq!(host.receive(&[7, 2, 0, 0]), Ok(Arrived { what: What::Answered(7), peer: 2, kind: 7, ..none }));
    assert_eq!(host.receive(&[4, 9, 3, 0]), Ok(Arrived { what: What::Other(4), peer: 9, link: 3, kind: 4, ..none }));
    assert_eq!(host.receive(&[0]), Ok(none));
    assert_eq!([1, 8, 10].map(|kind| host.receive(&[kind, 2, 5, 0]).unwrap().kind), [1, 8, 10]);
    assert_eq!((host.ignored().short_bits, host.ignored().other), (1, 4));
    assert!(host.phase(2).unwrap().wait);
    assert_eq!(host.counts(2), Ok(ncp::Counted::default()));
}

#[test]
fn an_echo_comes_back() {
    let mut host = up();
    let mut command = [0; 12];
    assert!(host.is_up(2));
    host.echo(2, 65).unwrap();
    assert_eq!(host.waiting(2, 0, &mut command), Some(&[9, 65][..]));
    assert!(host.next_output(&mut BUFFER.clone()).is_some());
    host.receive(&[0, 2, 0, 0, 0, 8, 0, 2, 0, 10, 65]).unwrap();
    assert_eq!(host.echoed(2), Ok(Some(65)));
}

#[test]
fn commands_are_read() {
    let message = [0, 2, 0, 0, 0, 8, 0, 4, 0, 12, 9, 65, 14];
    let mut buffer = [0; 12];
    assert_eq!(ncp::command(&message, 0, &mut buffer), Some(&[12][..]));
    assert_eq!(ncp::command(&message, 1, &mut buffer), Some(&[9, 65][..]));
    assert_eq!(ncp::command(&message, 2, &mut buffer), None);
}

#[test]
fn who_asks_is_listed() {
    let mut host = up();
    assert_eq!(host.connection_at(2, 0), Ok(None));
    assert_eq!(host.connection_at(3, 0), Err(Refusal::UnknownPeer));
    // It asks to send from 3 here to 2 there, and host 2 to receive at 4 from 1 here, on link 7.
    host.ask_send(AT, 8, 64).unwrap();
    host.receive(&[0, 2, 0, 0, 0, 8, 0, 10, 0, 1, 0, 0, 0, 4, 0, 0, 0, 1, 7]).unwrap();
    let who = At { peer: 2, local: 1, remote: 4 };
    let (at, known) = host.connection_at(2, 0).unwrap().unwrap();
    assert_eq!((at, known.heard, known.asked, known.link), (who, true, false, 7));
    assert_eq!(host.connection_at(2, 1).unwrap().unwrap().0, AT);
    assert_eq!(host.connection_at(2, 2), Ok(None));
    assert_eq!((host.room(AT), host.room(who)), (Ok(64), Ok(0)));
    assert_eq!(host.room(At { local: 5, ..AT }), Err(Refusal::NoEntry));
    assert_eq!(host.pair_on(2, true, 7), Ok(Some(who)));
    assert_eq!(host.pair_on(2, false, 7), Ok(None));
}

#[test]
fn what_is_out_goes_out_again() {
    let mut host = Host::new(1, &[2]).unwrap();
    let mut buffer = BUFFER;
    host.reset(2).unwrap();
    assert!(host.next_output(&mut buffer).is_some());
    assert_eq!(host.next_output(&mut buffer), None);
    host.restart(2).unwrap();
    assert_eq!(host.next_output(&mut buffer), Some(Bits::from(&RST)));
    assert!(!host.is_held(2, 0));
    host.receive(&[7, 2, 0, 0]).unwrap();
    assert!(host.is_held(2, 0));
    host.wake(2).unwrap();
    assert!(!host.is_held(2, 0));
    assert_eq!(host.restart(3), Err(Refusal::UnknownPeer));
}

#[test]
fn what_is_unacknowledged() {
    let mut host = Host::new(1, &[2]).unwrap();
    let mut buffer = BUFFER;
    host.reset(2).unwrap();
    assert_eq!(host.unacknowledged(2), Ok(Unacknowledged::Nothing)); // the RST is queued
    host.next_output(&mut buffer).unwrap();
    assert_eq!(host.unacknowledged(2), Ok(Unacknowledged::Reset));
    host.restart(2).unwrap();
    assert_eq!(host.unacknowledged(2), Ok(Unacknowledged::Reset)); // it is to be sent again
    host.next_output(&mut buffer).unwrap();
    host.receive(&[7, 2, 0, 0]).unwrap();
    assert_eq!(host.unacknowledged(2), Ok(Unacknowledged::Nothing)); // it is held
    host.wake(2).unwrap();
    assert_eq!(host.unacknowledged(2), Ok(Unacknowledged::Reset));
    assert_eq!(host.unacknowledged(3), Err(Refusal::UnknownPeer));
    let mut host = up();
    host.ask_send(AT, 8, 64).unwrap();
    host.next_output(&mut buffer).unwrap();
    assert_eq!(host.unacknowledged(2), Ok(Unacknowledged::Message));
    host.receive(&[5, 2, 0, 0]).unwrap();
    assert_eq!(host.unacknowledged(2), Ok(Unacknowledged::Nothing));
}

#[test]
fn a_subnet_delivers_once_and_answers() {
    let mut subnet = Subnet::new(&[1, 2]).unwrap();
    let mut buffer = BUFFER;
    assert_eq!(subnet.deliver(1, 2, 0, &mut buffer), None);
    assert!(!subnet.lose(1, 2, 0) && !subnet.dead(1, 2, 0));
    subnet.accept(1, &RST).unwrap();
    assert_eq!(subnet.accept(1, &RST), Err(Refusal::Occupied));
    assert_eq!(subnet.answer(1, 2, 0, &mut buffer), None);
    assert_eq!(subnet.deliver(1, 2, 0, &mut buffer), Some(Bits::from(&[0, 1, 0, 0, 0, 8, 0, 1, 0, 12])));
    assert_eq!(subnet.answer(1, 2, 0, &mut buffer), Some(Bits::from(&RFNM)));
    subnet.accept(1, &RST).unwrap();
    assert!(subnet.lose(1, 2, 0));
    assert_eq!(subnet.answer(1, 2, 0, &mut buffer), Some(Bits::from(&[9, 2, 0, 0])));
    subnet.accept(1, &RST).unwrap();
    assert!(subnet.dead(1, 2, 0));
    assert_eq!(subnet.answer(1, 2, 0, &mut buffer), Some(Bits::from(&[7, 2, 0, 0])));
    assert_eq!(subnet.accept(1, &RFNM), Err(Refusal::NotRegular));
    assert_eq!(subnet.accept(3, &RST), Err(Refusal::NoHost));
    assert_eq!(subnet.accept(1, Bits::new(&[0], 9)), Err(Refusal::ShortBytes));
}

#[test]
fn a_host_goes_to_another_thread() {
    let mut host = up();
    let there = std::thread::spawn(move || {
        host.ask_send(AT, 36, 720).unwrap();
        assert!(!host.is_open(AT));
        host
    });
    assert!(there.join().unwrap().state(AT).unwrap().asked);
}

#[test]
fn the_version_is_that_of_the_header() {
    let header = include_str!("../../../../include/ncp.h");
    assert!(header.contains(&format!("#define NCP_VERSION \"{}\"", ncp::version())));
}

#[test]
fn what_changed_is_told_once() {
    let (mut host, mut seen) = (up(), Connection::default());
    let at = At { peer: 2, local: 3, remote: 2 };
    assert_eq!(host.changes(at, &mut seen), Ok(Changes::default()));
    host.ask_send(at, 8, 64).unwrap();
    // Its RTS, on link 7; then its CLS.
    host.receive(&[0, 2, 0, 0, 0, 8, 0, 10, 0, 1, 0, 0, 0, 2, 0, 0, 0, 3, 7]).unwrap();
    assert_eq!(host.changes(at, &mut seen), Ok(Changes { opened: true, ..Changes::default() }));
    assert_eq!(Ok(seen), host.state(at));
    host.receive(&[0, 2, 0, 0, 0, 8, 0, 9, 0, 3, 0, 0, 0, 2, 0, 0, 0, 3]).unwrap();
    assert_eq!(host.changes(at, &mut seen), Ok(Changes { ended: true, ..Changes::default() }));
    assert_eq!(host.changes(at, &mut seen), Ok(Changes::default()));
    assert_eq!(seen, Connection::default());
    assert_eq!(host.changes(At { peer: 9, ..at }, &mut seen), Err(Refusal::UnknownPeer));
}

/// Two hosts; host 1 may send on link 2 from its socket 3 to socket 2 of host 2.
fn two_with_a_connection() -> ([Host; 2], Subnet) {
    let mut hosts = [Host::new(1, &[2]).unwrap(), Host::new(2, &[1]).unwrap()];
    let mut subnet = Subnet::new(&[1, 2]).unwrap();
    hosts[0].reset(2).unwrap();
    settle(&mut hosts, &mut subnet);
    hosts[1].ask_receive(THERE, 400).unwrap();
    hosts[0].ask_send(AT, 8, 400).unwrap();
    settle(&mut hosts, &mut subnet);
    hosts[1].allocate(THERE, 9, 400).unwrap();
    settle(&mut hosts, &mut subnet);
    (hosts, subnet)
}

const THERE: At = At { peer: 1, local: 2, remote: 3 };

/// All messages that go out are delivered and answered, until there is none.
fn settle(hosts: &mut [Host; 2], subnet: &mut Subnet) {
    let mut has_moved = true;
    while has_moved {
        has_moved = false;
        for from in 0..2 {
            let mut buffer = BUFFER;
            let Some(message) = hosts[from].next_output(&mut buffer) else { continue };
            let (sender, to, link) = (from as u8 + 1, message.bytes()[1], message.bytes()[2]);
            subnet.accept(sender, message).unwrap();
            hosts[1 - from].receive(subnet.deliver(sender, to, link, &mut BUFFER.clone()).unwrap()).unwrap();
            hosts[from].receive(subnet.answer(sender, to, link, &mut BUFFER.clone()).unwrap()).unwrap();
            has_moved = true;
        }
    }
}

fn events(watch: &mut Watch, host: &mut Host) -> Vec<Event> {
    std::iter::from_fn(|| watch.next_event(host)).take(100).collect()
}

#[test]
fn each_text_is_an_event_at_both_ends() {
    let (mut hosts, mut subnet) = two_with_a_connection();
    let mut watches = [Watch::new(2), Watch::new(1)];
    assert_eq!(events(&mut watches[0], &mut hosts[0]), [Event::Up, Event::Opened(AT), Event::Allowed(AT)]);
    assert_eq!(events(&mut watches[1], &mut hosts[1]), [Event::Up, Event::Opened(THERE)]);
    for _ in 0..3 {
        hosts[0].give(AT, b"hello").unwrap();
        settle(&mut hosts, &mut subnet);
        assert_eq!(events(&mut watches[0], &mut hosts[0]), [Event::Delivered(AT)]);
        let mut text = Vec::new();
        while let Some(event) = watches[1].next_event(&mut hosts[1]) {
            assert_eq!(event, Event::Text(THERE));
            text.extend_from_slice(hosts[1].take(THERE, u32::MAX, &mut BUFFER.clone()).unwrap().bytes());
        }
        assert_eq!(text, b"hello");
    }
    // It closes here, with a text out: that is delivered before the end.
    hosts[0].give(AT, b"hi").unwrap();
    let mut buffer = BUFFER;
    let copy = hosts[0].next_output(&mut buffer).map(|it| it.bytes().to_vec()).unwrap();
    assert_eq!(copy, [0, 2, 2, 0, 0, 8, 0, 2, 0, b'h', b'i']);
    hosts[0].close(AT).unwrap();
    assert_eq!(events(&mut watches[0], &mut hosts[0]), []);
    hosts[0].receive(&[5, 2, 2, 0]).unwrap();
    settle(&mut hosts, &mut subnet);
    assert_eq!(events(&mut watches[0], &mut hosts[0]), [Event::Delivered(AT), Event::Closed(AT)]);
    assert_eq!(events(&mut watches[1], &mut hosts[1]), [Event::Ended(THERE)]);
}

#[test]
fn a_delivery_is_seen_though_the_next_text_is_out() {
    let (mut hosts, _) = two_with_a_connection();
    let (host, mut watch, mut buffer) = (&mut hosts[0], Watch::new(2), BUFFER);
    assert_eq!(events(&mut watch, host).len(), 3);
    host.give(AT, &[7; 50]).unwrap();
    assert!(host.next_output(&mut buffer).is_some());
    // An Incomplete Transmission is no delivery.
    host.receive(&[9, 2, 2, 0]).unwrap();
    assert!(host.next_output(&mut buffer).is_some());
    assert_eq!(events(&mut watch, host), []);
    host.receive(&[5, 2, 2, 0]).unwrap();
    assert!(!host.state(AT).unwrap().busy);
    // The receiver had room for all 50 bytes and the sender for no more; it allows as much again.
    host.receive(&[0, 2, 0, 0, 0, 8, 0, 8, 0, 4, 2, 0, 1, 0, 0, 1, 144]).unwrap();
    host.give(AT, b"more").unwrap();
    assert!(host.next_output(&mut buffer).is_some());
    let (mut copy, mut other) = (host.try_clone().unwrap(), watch.clone());
    assert_eq!(events(&mut watch, host), [Event::Allowed(AT), Event::Delivered(AT)]);
    assert_eq!(events(&mut other, &mut copy), [Event::Allowed(AT), Event::Delivered(AT)]);
    // An answer to nothing is no delivery, nor is an RFNM of the control link.
    host.receive(&[5, 2, 2, 0]).unwrap();
    assert_eq!(events(&mut watch, host), [Event::Delivered(AT)]);
    for stray in [&[5, 2, 2, 0][..], &[5, 2, 3, 0], &[5, 2, 0, 0], &[5]] {
        host.receive(stray).unwrap();
        assert_eq!(events(&mut watch, host), []);
    }
}

#[test]
fn a_message_that_is_held_is_an_event() {
    let (mut host, mut watch, mut buffer) = (Host::new(1, &[4, 2]).unwrap(), Watch::new(2), BUFFER);
    host.reset(2).unwrap();
    for _ in 0..2 {
        assert!(host.next_output(&mut buffer).is_some());
        host.receive(&[7, 2, 0, 0]).unwrap();
        assert_eq!(watch.next_event(&mut host), Some(Event::Held));
        assert_eq!(watch.next_event(&mut host), None);
        host.wake(2).unwrap();
        assert_eq!(watch.next_event(&mut host), None);
    }
    assert_eq!(Watch::new(4).next_event(&mut host), None);
    // It comes up, and an echo is answered: by a byte, the same one, and another.
    assert!(host.next_output(&mut buffer).is_some());
    host.receive(&RFNM).unwrap();
    host.receive(&[0, 2, 0, 0, 0, 8, 0, 1, 0, 13]).unwrap();
    assert_eq!(events(&mut watch, &mut host), [Event::Up]);
    for (byte, wanted) in [(65, vec![Event::Echoed(65)]), (65, vec![]), (66, vec![Event::Echoed(66)])] {
        host.echo(2, byte).unwrap();
        assert!(host.next_output(&mut buffer).is_some());
        host.receive(&RFNM).unwrap();
        host.receive(&[0, 2, 0, 0, 0, 8, 0, 2, 0, 10, byte]).unwrap();
        assert_eq!(events(&mut watch, &mut host), wanted);
    }
    host.reset(2).unwrap();
    assert_eq!(events(&mut watch, &mut host), [Event::Down]);
}

#[test]
fn each_end_of_a_connection_is_an_event() {
    let (mut host, mut watch) = (up(), Watch::new(2));
    let cls = [0, 2, 0, 0, 0, 8, 0, 9, 0, 3, 0, 0, 0, 2, 0, 0, 0, 3];
    let rts = [0, 2, 0, 0, 0, 8, 0, 10, 0, 1, 0, 0, 0, 2, 0, 0, 0, 3, 2];
    assert_eq!(events(&mut watch, &mut host), [Event::Up]);
    host.receive(&rts).unwrap();
    assert_eq!(events(&mut watch, &mut host), [Event::Asks(AT)]);
    host.ask_send(AT, 8, 64).unwrap();
    // An INR, and the CLS.
    host.receive(&[0, 2, 0, 0, 0, 8, 0, 2, 0, 7, 2]).unwrap();
    assert_eq!(events(&mut watch, &mut host), [Event::Opened(AT), Event::Interrupted(AT)]);
    host.receive(&cls).unwrap();
    assert_eq!(events(&mut watch, &mut host), [Event::Ended(AT)]);
    host.ask_send(AT, 8, 64).unwrap();
    assert_eq!(events(&mut watch, &mut host), []);
    host.receive(&cls).unwrap();
    assert_eq!(events(&mut watch, &mut host), [Event::Refused(AT)]);
}

#[test]
fn a_stream_gives_and_allows_what_fits() {
    let (mut hosts, mut subnet) = two_with_a_connection();
    let (at, there) = (At { local: 5, remote: 4, ..AT }, At { peer: 1, local: 4, remote: 5 });
    let sender = Stream::send(&mut hosts[0], at, 36, 80).unwrap();
    let receiver = Stream::receive(&mut hosts[1], there, 80, 2).unwrap();
    assert_eq!((sender.at(), sender.space(&hosts[0]), receiver.allow(&mut hosts[1])), (at, 0, Ok(0)));
    // Three bytes of 36 bits; two fit.
    let text = [0x12, 0x34, 0x56, 0x78, 0x9a, 0xbc, 0xde, 0xf0, 0x12, 0x34, 0x56, 0x78, 0x9a, 0xbf];
    assert_eq!(sender.give(&mut hosts[0], Bits::new(&text, 108), 0), Ok(0));
    settle(&mut hosts, &mut subnet);
    assert_eq!((receiver.space(&hosts[1]), receiver.allow(&mut hosts[1]), receiver.allow(&mut hosts[1])), (80, Ok(80), Ok(0)));
    assert_eq!(sender.give(&mut hosts[0], Bits::new(&text, 108), 0), Ok(72));
    assert_eq!((sender.space(&hosts[0]), sender.give(&mut hosts[0], Bits::new(&text, 108), 72)), (8, Ok(0)));
    settle(&mut hosts, &mut subnet);
    assert_eq!(hosts[0].state(at).unwrap().messages, 1);
    assert_eq!(hosts[1].take(there, u32::MAX, &mut BUFFER.clone()), Ok(Bits::new(&text[..9], 72)));
    assert_eq!((receiver.space(&hosts[1]), receiver.allow(&mut hosts[1])), (72, Ok(72)));
    settle(&mut hosts, &mut subnet);
    assert_eq!(hosts[0].state(at).unwrap().messages, 2);
    // From the second byte on, which begins in the middle of eight bits.
    assert_eq!(sender.give(&mut hosts[0], Bits::new(&text, 108), 36), Ok(72));
    settle(&mut hosts, &mut subnet);
    let shifted = [0xab, 0xcd, 0xef, 0x01, 0x23, 0x45, 0x67, 0x89, 0xab];
    assert_eq!(hosts[1].take(there, u32::MAX, &mut BUFFER.clone()), Ok(Bits::new(&shifted, 72)));
    // Spare bits do not reach the host.
    assert_eq!((receiver.allow(&mut hosts[1]), sender.give(&mut hosts[0], Bits::new(&text, 36), 0)), (Ok(72), Ok(36)));
    settle(&mut hosts, &mut subnet);
    assert_eq!(hosts[1].take(there, u32::MAX, &mut BUFFER.clone()), Ok(Bits::new(&[0x12, 0x34, 0x56, 0x78, 0x90], 36)));
    for (refusal, answer) in [
        (Refusal::ShortBytes, sender.give(&mut hosts[0], Bits::new(&text, 144), 0)),
        (Refusal::NotWhole, sender.give(&mut hosts[0], Bits::new(&text, 40), 0)),
        (Refusal::WrongEnd, receiver.give(&mut hosts[1], Bits::new(&text, 36), 0)),
        (Refusal::WrongEnd, sender.allow(&mut hosts[0]).map(|it| it as usize)),
        (Refusal::AlreadyAsked, Stream::send(&mut hosts[0], at, 8, 80).map(|_| 0)),
    ] {
        assert_eq!(answer, Err(refusal));
    }
    assert_eq!(sender.give(&mut hosts[0], Bits::new(&text, 36), 72), Ok(0));
    hosts[0].close(at).unwrap();
    assert_eq!(sender.give(&mut hosts[0], Bits::new(&text, 36), 0), Err(Refusal::Closing));
    settle(&mut hosts, &mut subnet);
    assert_eq!(sender.give(&mut hosts[0], Bits::new(&text, 36), 0), Err(Refusal::NoEntry));
    assert_eq!((sender.space(&hosts[0]), receiver.allow(&mut hosts[1])), (0, Ok(0)));
}

#[test]
fn messages_are_allowed_though_no_bit_is_left() {
    let (mut hosts, mut subnet) = two_with_a_connection();
    let (at, there) = (At { local: 5, remote: 4, ..AT }, At { peer: 1, local: 4, remote: 5 });
    let sender = Stream::send(&mut hosts[0], at, 8, 80).unwrap();
    let receiver = Stream::receive(&mut hosts[1], there, 80, 1).unwrap();
    settle(&mut hosts, &mut subnet);
    assert_eq!(receiver.allow(&mut hosts[1]), Ok(80));
    settle(&mut hosts, &mut subnet);
    assert_eq!(sender.give(&mut hosts[0], b"hello", 0), Ok(40));
    settle(&mut hosts, &mut subnet);
    // 40 bits are held and 40 outstanding, but no message.
    assert_eq!((receiver.space(&hosts[1]), hosts[1].state(there).unwrap().messages, receiver.allow(&mut hosts[1])), (0, 0, Ok(0)));
    settle(&mut hosts, &mut subnet);
    assert_eq!((hosts[0].state(at).unwrap().messages, hosts[0].state(at).unwrap().bits), (1, 40));
    // A sender that closes while its text is unanswered accepts no further text.
    assert_eq!(sender.give(&mut hosts[0], b"hello", 0), Ok(40));
    assert!(hosts[0].next_output(&mut BUFFER.clone()).is_some());
    hosts[0].close(at).unwrap();
    assert!(hosts[0].state(at).unwrap().leaving);
    assert_eq!(sender.give(&mut hosts[0], b"hello", 0), Err(Refusal::Closing));
}

#[test]
fn a_text_longer_than_a_message_is_given_at_once() {
    let (mut hosts, mut subnet) = two_with_a_connection();
    let (at, there) = (At { local: 5, remote: 4, ..AT }, At { peer: 1, local: 4, remote: 5 });
    let sender = Stream::send(&mut hosts[0], at, 8, 20_000).unwrap();
    let receiver = Stream::receive(&mut hosts[1], there, 20_000, 9).unwrap();
    settle(&mut hosts, &mut subnet);
    assert_eq!(receiver.allow(&mut hosts[1]), Ok(20_000));
    settle(&mut hosts, &mut subnet);
    let text: Vec<u8> = (0..2500).map(|it| (it % 251) as u8).collect();
    assert_eq!(sender.give(&mut hosts[0], text.as_slice(), 0), Ok(20_000));
    settle(&mut hosts, &mut subnet);
    let (mut got, mut buffer) = (Vec::new(), BUFFER);
    while hosts[1].state(there).unwrap().stored > 0 {
        got.extend_from_slice(hosts[1].take(there, u32::MAX, &mut buffer).unwrap().bytes());
    }
    assert_eq!(got, text);
}
