#!/usr/bin/env python3
# SPDX-License-Identifier: MIT
"""examples/embed/two_hosts.c in Python, with the same output, examples/embed/two_hosts.txt."""
import ncp

A, B, ODD, EVEN = 1, 2, 3, 2
RFNM, INCOMPLETE = 5, 9


def carry(one: ncp.Host, other: ncp.Host, is_lost: bool = False) -> bool:
    """Carries the next message of a host to the other, or loses it; the network answers its host."""
    message = one.next_output()
    if message is None:
        return False
    print(f"{'a to b' if one.me == A else 'b to a'} {message.data.hex()}")
    if is_lost:
        print("  lost")
    else:
        # The leader of a received message names its source.
        other.receive(message._replace(data=message.data[:1] + bytes([one.me]) + message.data[2:]))
    one.receive(bytes([INCOMPLETE if is_lost else RFNM, message.host, message.link, 0]))
    return True


def settle(a: ncp.Host, b: ncp.Host) -> None:
    while carry(a, b) | carry(b, a):
        pass


def say_state(host: ncp.Host, peer: int, local: int, remote: int, name: str) -> None:
    try:
        it = host.state(peer, local, remote)
    except ncp.NoEntry:
        print(f"{name}: NoEntry")
        return
    print(f"{name} {'sends' if it.sends else 'receives'}: opened={it.opened:d} link={it.link} size={it.size} "
          f"messages={it.messages} bits={it.bits} stored={it.stored}")


def main() -> None:
    a, b = ncp.Host(A, [B]), ncp.Host(B, [A])
    a.reset(B)
    settle(a, b)
    for name, host, peer in ("a", a, B), ("b", b, A):
        print(f"{name} is {'up' if host.is_up(peer) else 'not up'}")
    b.ask_receive(A, EVEN, ODD, room=1024)
    settle(a, b)
    a.ask_send(B, ODD, EVEN, size=8, room=1024)
    settle(a, b)
    b.allocate(A, EVEN, ODD, messages=2, bits=64)
    settle(a, b)
    say_state(a, B, ODD, EVEN, "a")
    a.give(B, ODD, EVEN, b"hello")
    carry(a, b, is_lost=True)
    settle(a, b)
    say_state(a, B, ODD, EVEN, "a")
    say_state(b, A, EVEN, ODD, "b")
    text = b.take(A, EVEN, ODD)
    print(f"b took {text.count} bits: {text.data.decode()}")
    a.close(B, ODD, EVEN)
    settle(a, b)
    say_state(a, B, ODD, EVEN, "a")
    say_state(b, A, EVEN, ODD, "b")


if __name__ == "__main__":
    main()
