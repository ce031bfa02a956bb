// SPDX-License-Identifier: MIT
//! `examples/embed/two_hosts.c` in Rust, with the same output, `examples/embed/two_hosts.txt`.
use ncp::{At, Host, Refusal, BUFFER};

const A: u8 = 1;
const B: u8 = 2;
const SENDER: At = At { peer: B, local: 3, remote: 2 };
const RECEIVER: At = At { peer: A, local: 2, remote: 3 };
const RFNM: u8 = 5;
const INCOMPLETE: u8 = 9;

/// Carries the next message of a host to the other, or loses it; the network answers its host. Returns whether there was one.
fn carry(from: &mut Host, me: u8, to: &mut Host, is_lost: bool) -> Result<bool, Refusal> {
    let mut buffer = BUFFER;
    let Some(message) = from.next_output(&mut buffer) else {
        return Ok(false);
    };
    let digits: String = message.bytes().iter().map(|byte| format!("{byte:02x}")).collect();
    println!("{} {digits}", if me == A { "a to b" } else { "b to a" });
    let [_, host, link, ..] = *message.bytes() else {
        return Ok(false);
    };
    if is_lost {
        println!("  lost");
    } else {
        // The leader of a received message names its source.
        let mut came = message.bytes().to_vec();
        came[1] = me;
        to.receive(ncp::Bits::new(&came, message.len()))?;
    }
    from.receive(&[if is_lost { INCOMPLETE } else { RFNM }, host, link, 0])?;
    Ok(true)
}

/// Carries messages until neither host has one.
fn settle(a: &mut Host, b: &mut Host) -> Result<(), Refusal> {
    while carry(a, A, b, false)? | carry(b, B, a, false)? {}
    Ok(())
}

fn say_state(host: &Host, at: At, name: &str) {
    match host.state(at) {
        Ok(it) => println!(
            "{name} {}: opened={} link={} size={} messages={} bits={} stored={}",
            if it.sends { "sends" } else { "receives" },
            u8::from(it.opened),
            it.link,
            it.size,
            it.messages,
            it.bits,
            it.stored
        ),
        Err(refusal) => println!("{name}: {refusal}"),
    }
}

fn main() -> Result<(), Refusal> {
    let (mut a, mut b) = (Host::new(A, &[B])?, Host::new(B, &[A])?);
    a.reset(B)?;
    settle(&mut a, &mut b)?;
    for (name, is_up) in [("a", a.is_up(B)), ("b", b.is_up(A))] {
        println!("{name} is {}", if is_up { "up" } else { "not up" });
    }
    b.ask_receive(RECEIVER, 1024)?;
    settle(&mut a, &mut b)?;
    a.ask_send(SENDER, 8, 1024)?;
    settle(&mut a, &mut b)?;
    b.allocate(RECEIVER, 2, 64)?;
    settle(&mut a, &mut b)?;
    say_state(&a, SENDER, "a");
    a.give(SENDER, b"hello")?;
    carry(&mut a, A, &mut b, true)?;
    settle(&mut a, &mut b)?;
    say_state(&a, SENDER, "a");
    say_state(&b, RECEIVER, "b");
    let mut buffer = BUFFER;
    let text = b.take(RECEIVER, u32::MAX, &mut buffer)?;
    println!("b took {} bits: {}", text.len(), String::from_utf8_lossy(text.bytes()));
    a.close(SENDER)?;
    settle(&mut a, &mut b)?;
    say_state(&a, SENDER, "a");
    say_state(&b, RECEIVER, "b");
    Ok(())
}
