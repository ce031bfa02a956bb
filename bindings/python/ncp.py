# SPDX-License-Identifier: MIT
"""A host of the ARPANET with its one to eight peers, and a subnet between hosts, over libncp. docs/EMBEDDING.md shows how to drive a host.

    host = Host(1, peers=[2])
    host.reset(2)
    for message in host.outputs():      # messages to the IMP
        ...
    host.receive(message)               # a message from it
    for event in host.events():         # changes since the last call
        ...

Hosts, links and sizes of bytes are numbers of 8 bits, sockets and rooms of 32; another number is an OverflowError. Texts, messages and
rooms are counted in bits. A refusal is an exception, a subclass of Refused that has its name: NotUp, NoEntry, BadPeers. It changes
nothing. If several apply, it is the first one that a method lists; NoHost or NoSubnet comes before all, after `free`.

The library is that of NCP_LIBRARY, if this is set, of prebuilt/ if this file is in the repository, of the package if a
library is inside, or the one that is installed; one of another version is refused. Threads may share a host: its calls come one after the other. Builds of Python without a global lock are refused.
"""
from __future__ import annotations

import ctypes
import errno
import io
import operator
import os
import platform
import subprocess
import sys
import threading
from collections import deque
from ctypes import POINTER, byref, c_bool, c_char_p, c_size_t, c_uint8, c_uint16, c_uint32, c_void_p
from pathlib import Path
from typing import (TYPE_CHECKING, Annotated, Any, BinaryIO, Deque, Dict, Iterable, Iterator, List, NamedTuple, Optional, Set, SupportsIndex, Tuple, Type, TypeVar,
                    Union, get_args, get_type_hints)

if TYPE_CHECKING:
    from _typeshed import ReadableBuffer

VERSION = "2.0.0"
SONAME = f"libncp.so.{VERSION.partition('.')[0]}"
LONGEST_MESSAGE, LONGEST_COMMAND, LINKS = 1024, 12, 72
MOST_BITS = 8 * LONGEST_MESSAGE
DONE, UNKNOWN_PEER, NO_ENTRY, CLOSING, WRONG_END, NOT_WHOLE, SHORT_BUFFER, NOTHING, SHORT_BYTES = 0, 1, 6, 8, 10, 11, 34, 35, 42
# How many connections a peer are watched for events: twice as many as there can be.
WATCHED = 256
# Types of messages (BBN 1822, section 3): answers to a message that was sent, and those of which a host has no other sign.
RFNM, DESTINATION_DEAD, INCOMPLETE = 5, 7, 9
ERROR_IN_LEADER, ERROR_IN_MESSAGE, INTERFACE_RESET = 1, 8, 10
# The links from here on are those of texts.
FIRST_DATA_LINK = 2
# Directions of a capture.
TO_IMP, FROM_IMP = 0x48, 0x49
# A connection: the peer, the socket here and the socket there.
Key = Tuple[int, int, int]


class Bits(NamedTuple):
    """A message or a text: `count` bits, from the most significant bit of the first byte; the spare bits of the last byte are zero."""
    data: bytes
    count: int  # type: ignore[assignment]  # a tuple has a method of this name

    @property
    def host(self) -> int:
        """The host that the leader of a message names: its destination if it is sent, else its source."""
        return self.data[1]

    @property
    def link(self) -> int:
        """The link that the leader of a message names."""
        return self.data[2]


class Arrived(NamedTuple):
    """The result of a message that arrived: `what` is one of ARRIVED, and `detail` as in ncp.h at NCP_ARRIVED_.. . `peer`, `link`
    and `kind` (the type) are those of its leader. `local` and `remote` are the sockets of the connection that the link of a text belongs
    to, or 0 and 0. `errors` and `resets` count the ERRs and RSTs of a control message; each RST ended all connections with the peer.
    After the types ERROR_IN_LEADER, ERROR_IN_MESSAGE and INTERFACE_RESET no answer to a message follows."""
    what: str
    detail: int
    peer: int
    link: int
    local: int = 0
    remote: int = 0
    kind: int = 0
    errors: int = 0
    resets: int = 0


class Event(NamedTuple):
    """An event; `value` is the value that is in parentheses here.

    Of a peer: `up` and `down`; `echoed` (the byte); `held` (a message found its destination dead: it is held until `wake`).
    Of a connection, as `struct ncp_changes` of ncp.h has them: `asks` (the peer asks, and nothing was asked here: the link to send on, or
    the byte size to receive), `opened`, `text` (the bits that are held now), `allowed` (the messages and bits that may be sent now),
    `delivered` (a text had its RFNM), `interrupted` (how often in all), `closes`, and `closed` (by this side first), `refused` or `ended`."""
    what: str
    peer: int
    local: Optional[int] = None
    remote: Optional[int] = None
    value: Union[None, int, Tuple[int, int]] = None

    @property
    def told(self) -> Union[None, int, Tuple[int, int]]:
        """The former name of `value`; the next major version drops it."""
        return self.value

    @property
    def at(self) -> Key:
        """The connection that it is about, as arguments for `host.take(*event.at)`. ValueError if it is only about a peer."""
        if self.local is None or self.remote is None:
            raise ValueError(f"{self.what} is about no connection")
        return self.peer, self.local, self.remote


UNACKNOWLEDGED = ("nothing", "message", "reset")
ARRIVED = ("", "short", "other", "unknown", "stray", "answered", "fault", "wrong link", "wrong size", "control", "text", "not up")

# Fields of structs: their types in Python and in C.
_U8 = Annotated[int, c_uint8]
_U16 = Annotated[int, c_uint16]
_U32 = Annotated[int, c_uint32]
_Flag = Annotated[bool, c_bool]


class _Struct(ctypes.Structure):
    def __eq__(self, other: object) -> bool:
        return type(self) is type(other) and bytes(self) == bytes(other)  # type: ignore[call-overload]

    def __repr__(self) -> str:
        return f"{type(self).__name__}({', '.join(f'{name}={getattr(self, name)!r}' for name in self.names())})"

    @classmethod
    def names(cls) -> List[str]:
        """The names of the fields, in their order."""
        return [field[0] for field in cls._fields_]


_AStruct = TypeVar("_AStruct", bound=Type[_Struct])


def _struct(kind: _AStruct) -> _AStruct:
    """A struct of C that has the fields which its annotations name."""
    kind._fields_ = [(name, get_args(hint)[1]) for name, hint in get_type_hints(kind, include_extras=True).items()]
    return kind


@_struct
class _Handle(_Struct):
    at: Annotated[Optional[int], c_void_p]


@_struct
class _Arrived(_Struct):
    what: _U32
    detail: _U32
    local: _U32
    remote: _U32
    errors: _U32
    resets: _U32
    peer: _U8
    link: _U8
    kind: _U8


@_struct
class Flags(_Struct):
    """The flags for a peer. The host is up with it if none is set."""
    down: _Flag  # no RST and no RRP was made since the start, or since it went down
    want: _Flag  # an RST is to be made, once the data links are quiet
    owe: _Flag  # an RRP is to be made, once the data links are quiet
    wait: _Flag  # an RST was made, and its RRP has not arrived


@_struct
class Counted(_Struct):
    """The numbers of arrivals from a peer that had no effect."""
    stray: _U32  # unexpected answers, RRPs and ERPs
    faults: _U32  # messages of type 0 that are not regular
    wrong_link: _U32  # on link 1, or on one over 71
    wrong_size: _U32  # of a wrong byte size
    not_up: _U32  # while the host was not up
    late: _U32  # for an end that is closing
    over: _U32  # texts beyond the allocation


@_struct
class Discarded(_Struct):
    """How many messages were of no peer."""
    short_bits: _U32  # fewer than 32 bits
    other: _U32  # of a type that has no effect on a host
    unknown: _U32  # from a host that is no peer


@_struct
class Noted(_Struct):
    """An ERR that arrived: its code, and the ten bytes that it is about."""
    code: _U8
    bytes: Annotated["ctypes.Array[c_uint8]", c_uint8 * 10]


@_struct
class Connection(_Struct):
    """A connection, or a request for one: the fields of `struct ncp_connection`."""
    bits: _U32  # that a sender may still send, or that are outstanding at a receiver
    stored: _U32  # bits that are queued at a sender, or held at a receiver
    interrupts: _U32  # how many arrived
    messages: _U16  # as `bits`, of messages
    link: _U8  # 2 to 71; 0 until the receiver chose one
    size: _U8  # bits in a byte; 0 until the sender chose it
    sends: _Flag  # this end sends; else it receives
    asked: _Flag  # the local request was made
    heard: _Flag  # the peer's request arrived
    opened: _Flag  # both requests met while neither side had closed
    leaving: _Flag  # a CLS is due
    left: _Flag  # the CLS was made
    cls: _Flag  # the peer's CLS arrived
    busy: _Flag  # a sender's text was sent and has had no RFNM
    recall: _Flag  # a receiver's GVB has had no RET


@_struct
class Changes(_Struct):
    """The changes of a connection between two calls: the fields of `struct ncp_changes`."""
    closed: _Flag  # it ended, and this side had closed it first
    refused: _Flag  # it ended before the peer had asked
    ended: _Flag  # it ended after the peer had asked
    asks: _Flag  # the peer asks, and this side has not
    opened: _Flag  # both requests met
    text: _Flag  # more text is held
    allowed: _Flag  # more messages may be sent, or more bits
    delivered: _Flag  # the text that was unanswered was delivered
    interrupted: _Flag  # interrupts arrived
    closes: _Flag  # the peer closes it: its CLS arrived


# The structs of ncp.h, in its order.
_STRUCTS = {"ncp_host": _Handle, "ncp_subnet": _Handle, "ncp_arrived": _Arrived, "ncp_flags": Flags, "ncp_peer_counts": Counted,
            "ncp_ignored_counts": Discarded, "ncp_err_command": Noted, "ncp_connection": Connection, "ncp_changes": Changes}


def _repository() -> Optional[Path]:
    """The top of the repository, if this file is in it, else None: a copy of it elsewhere trusts no folder."""
    here = Path(__file__).resolve()
    top = here.parent.parent.parent
    is_there = here == top / "bindings/python/ncp.py" and all((top / name).is_file() for name in ("crates.txt", "include/ncp.h", "tools/prebuild"))
    return top if is_there else None


def _path() -> str:
    """The path of the library. That of the repository has to be built from its sources."""
    named, top = os.environ.get("NCP_LIBRARY"), _repository()
    name = SONAME if platform.machine() == "x86_64" else f"{platform.machine()}/{SONAME}"
    inside = Path(__file__).resolve().parent / name
    if not named and Path(__file__).name == "__init__.py" and inside.is_file():
        return str(inside)
    if named or not top:
        return named or SONAME
    if subprocess.run([top / "tools/prebuild", "--has", name], stdout=subprocess.DEVNULL, stderr=subprocess.DEVNULL).returncode:
        raise ImportError(f"{top}/prebuilt/{name} is not built from the sources of this repository: run tools/prebuild, or set NCP_LIBRARY")
    return str(top / "prebuilt" / name)


def _library() -> ctypes.PyDLL:
    """The library, if it is of this version and has these structs."""
    if not getattr(sys, "_is_gil_enabled", lambda: True)():
        raise ImportError("ncp needs a Python with a global lock, and this one runs without it")
    path = _path()
    library = ctypes.PyDLL(path)
    try:
        library.ncp_version.restype = c_char_p
        version = library.ncp_version().decode()
    except AttributeError:
        raise ImportError(f"{path} is no libncp: it does not say its version") from None
    if version != VERSION:
        raise ImportError(f"{path} is version {version} of libncp, and ncp.py is for {VERSION}")
    library.ncp_sizes.restype = POINTER(c_uint32)
    sizes = [*map(ctypes.sizeof, _STRUCTS.values()), 0]
    if library.ncp_sizes()[:len(sizes)] != sizes:
        raise ImportError(f"{path} has structs of other sizes than ncp.py, though both are version {VERSION}")
    return library


_HANDLE, _BYTES, _SIZE, _BUFFER = POINTER(_Handle), c_char_p, c_size_t, POINTER(c_uint8)
_INTEGERS = c_uint8, c_uint16, c_uint32, c_size_t
_PEER, _AT, _WAY = (c_uint8,), (c_uint8, c_uint32, c_uint32), (c_uint8, c_uint8, c_uint8)
# The functions by their parameters after the host, or the subnet.
_CALLS: Dict[str, Tuple[Any, ...]] = {
    "new": (c_uint8, _BYTES, _SIZE), "copy": (_HANDLE,), "save": (_BUFFER, _SIZE, POINTER(_SIZE)), "load": (_BYTES, _SIZE),
    "receive": (_BYTES, _SIZE, _SIZE, POINTER(_Arrived)), "next_output": (_BUFFER, _SIZE, POINTER(_SIZE)),
    "reset": _PEER, "ask_send": (*_AT, c_uint8, c_uint32), "ask_receive": (*_AT, c_uint32), "give": (*_AT, _BYTES, _SIZE, _SIZE),
    "take": (*_AT, c_uint32, _BUFFER, _SIZE, POINTER(_SIZE)), "allocate": (*_AT, c_uint16, c_uint32), "call_back": (*_AT, c_uint8, c_uint8),
    "interrupt": _AT, "close": _AT, "echo": (*_PEER, c_uint8), "wake": _PEER, "restart": _PEER, "state": (*_AT, POINTER(Connection)),
    "changes": (*_AT, POINTER(Connection), POINTER(Changes)),
    "connection_at": (*_PEER, c_uint32, POINTER(c_uint32), POINTER(c_uint32), POINTER(Connection)), "room": (*_AT, POINTER(c_uint32)),
    "pair_on": (*_PEER, c_bool, c_uint8, POINTER(c_uint32), POINTER(c_uint32)), "is_held": (*_PEER, c_uint8), "phase": (*_PEER, POINTER(Flags)),
    "echoed": (*_PEER, POINTER(c_uint8)), "error": (*_PEER, c_uint32, POINTER(Noted)),
    "counts": (*_PEER, POINTER(Counted)), "ignored": (POINTER(Discarded),), "waiting": (*_PEER, c_uint32, _BUFFER, _SIZE, POINTER(_SIZE)),
    "kept": (*_PEER, c_uint8, _BUFFER, _SIZE, POINTER(_SIZE)), "unacknowledged": (*_PEER, POINTER(c_uint32)),
    "subnet_new": (_BYTES, _SIZE), "subnet_accept": (c_uint8, _BYTES, _SIZE, _SIZE), "subnet_deliver": (*_WAY, _BUFFER, _SIZE, POINTER(_SIZE)),
    "subnet_lose": _WAY, "subnet_dead": _WAY, "subnet_answer": (*_WAY, _BUFFER, _SIZE, POINTER(_SIZE)),
}
_ncp = _library()
for _name, _words in _CALLS.items():
    getattr(_ncp, f"ncp_{_name}").argtypes = [_HANDLE, *_words]
    getattr(_ncp, f"ncp_{_name}").restype = c_uint32
_ncp.ncp_free.argtypes, _ncp.ncp_free.restype = [_HANDLE], None
_ncp.ncp_subnet_free.argtypes, _ncp.ncp_subnet_free.restype = [_HANDLE], None
_ncp.ncp_is_held.restype = c_bool
_ncp.ncp_command.argtypes, _ncp.ncp_command.restype = [_BYTES, _SIZE, _SIZE, c_uint32, _BUFFER, _SIZE, POINTER(_SIZE)], c_uint32
_ncp.ncp_word.argtypes, _ncp.ncp_word.restype = [c_uint32], c_char_p


class Refused(Exception):
    """Why a call was refused, which then changed nothing: `number` is what the library returned."""
    number: Optional[int] = None


class UnknownPeer(Refused):
    """The host has no such peer."""


class NotUp(Refused):
    """The host is not up with the peer."""


class BadSex(Refused):
    """A socket is odd that has to be even, or even that has to be odd: those that send are odd."""


class BadSize(Refused):
    """A byte has 0 bits."""


class BadRoom(Refused):
    """A room has not 1 to 65,536 bits."""


class NoEntry(Refused):
    """There is no connection between these sockets, and no request for one."""


class AlreadyAsked(Refused):
    """The connection was asked for here before."""


class Closing(Refused):
    """This side has closed the connection, and it is not over yet."""


class NotOpen(Refused):
    """The connection is not open."""


class WrongEnd(Refused):
    """The call is for the other end: of a sender at a receiver, or of a receiver at a sender."""


class NotWhole(Refused):
    """The text is no whole number of bytes of the size that the connection has."""


class Busy(Refused):
    """The last reset, echo or call for allocations has had no answer."""


class NoRoom(Refused):
    """The text is longer than the room that is left for it."""


class TooMuch(Refused):
    """More is allowed than there is room for, or than a counter counts."""


class TableFull(Refused):
    """64 connections with the peer were asked for here."""


class QueueFull(Refused):
    """256 commands, or more, are queued for the peer."""


class OutOfMemory(Refused):
    """There is no memory for it."""


class NoHost(Refused):
    """The host was freed; or, of a subnet, a message is not from one of its hosts to another."""


class NoPointer(Refused):
    """A pointer is null: never in Python."""


class ShortBuffer(Refused):
    """A buffer is too short: never in Python."""


class Nothing(Refused):
    """There is no such thing: Python returns None, or an end, in its place."""


class NoSubnet(Refused):
    """The subnet was freed."""


class TooLong(Refused):
    """There are more than 8,192 bits."""


class ShortBytes(Refused):
    """There are fewer bytes than the bits take."""


class SpareNotZero(Refused):
    """A spare bit of the last byte is set."""


class BadPeers(Refused):
    """The peers are not one to eight, or not distinct, or the host itself is one of them."""


class NotRegular(Refused):
    """The message is shorter than a leader, or not of type 0."""


class Occupied(Refused):
    """The last message on this link is unanswered."""


class NotAHost(Refused):
    """No host is saved as these bytes."""


class OtherVersion(Refused):
    """A host is saved so by another version of the library."""


# The class of each number that the library returns: two numbers may have one name.
_CLASSES = {kind.__name__: kind for kind in Refused.__subclasses__()}
_NUMBERS = {number: _CLASSES[name] for number in range(1, 256) for name in [_ncp.ncp_word(number).decode()] if name in _CLASSES}


def _judge(number: int) -> None:
    if number != DONE:
        refused = _NUMBERS.get(number, Refused)()
        refused.number = number
        raise refused


def _bytes(data: ReadableBuffer) -> bytes:
    """All bytes of an object with a buffer, regardless of its items and its len."""
    return memoryview(data).tobytes()


def _bits(data: Union[ReadableBuffer, Bits], count: Optional[SupportsIndex] = None) -> Bits:
    """Bits as they are passed: bytes, a Bits, or bytes and a number of bits."""
    if isinstance(data, Bits):
        data, count = data
    data = _bytes(data)
    return Bits(data, 8 * len(data) if count is None else _fitting("bits", c_size_t, count))


def _fitting(name: str, kind: Any, number: SupportsIndex) -> int:
    """A number for a parameter; one that has no place in it is an OverflowError."""
    number, bits = operator.index(number), 8 * ctypes.sizeof(kind)
    if not 0 <= number < 1 << bits:
        raise OverflowError(f"{name}: {number} has no place in {bits} bits")
    return number


def _numbers(hosts: Iterable[SupportsIndex]) -> bytes:
    """Numbers of hosts, as bytes."""
    return bytes(_fitting("hosts", c_uint8, host) for host in hosts)


def _front(data: Any, count: int) -> Bits:
    """The first bits of a buffer."""
    return Bits(bytes(data[:(count + 7) // 8]), count)


def commands(data: Union[ReadableBuffer, Bits], count: Optional[SupportsIndex] = None) -> List[bytes]:
    """The whole commands of a control message of `count` bits, as bytes, in their order; of another message there are none. So a server
    reads who asks: of an RTS (1) and an STR (2) bytes 1 to 4 are the socket of the peer, and 5 to 8 the one here.
    Refused, in order: TooLong, ShortBytes, SpareNotZero."""
    bits, out, size = _bits(data, count), (c_uint8 * LONGEST_COMMAND)(), c_size_t()
    found: List[bytes] = []
    while (number := _ncp.ncp_command(bits.data, len(bits.data), bits.count, len(found), out, LONGEST_COMMAND, byref(size))) == DONE:
        found.append(bytes(out[:size.value]))
    if number != NOTHING:
        _judge(number)
    return found


_Written = TypeVar("_Written")


class _Handled:
    """The object behind a handle of the library."""
    _free = ""

    def __init__(self) -> None:
        self._handle, self._lock = _Handle(), threading.RLock()

    def free(self) -> None:
        """Frees its memory in the library. A call after that is refused: NoHost, NoSubnet."""
        with self._lock:
            getattr(_ncp, self._free)(byref(self._handle))

    def __enter__(self: _AHandled) -> _AHandled:
        return self

    def __exit__(self, *_: object) -> None:
        self.free()

    def __del__(self) -> None:
        if getattr(self, "_handle", None) and _ncp:
            self.free()

    def _answer(self, name: str, *words: Any) -> int:
        """The result of a function."""
        words = tuple(_fitting(name, kind, word) if kind in _INTEGERS else word for kind, word in zip(_CALLS[name], words))
        with self._lock:
            number: int = getattr(_ncp, f"ncp_{name}")(byref(self._handle), *words)
        return number

    def _do(self, name: str, *words: Any) -> None:
        _judge(self._answer(name, *words))

    def _is_done(self, name: str, *words: Any) -> bool:
        """Whether a function did something, or found nothing."""
        number = self._answer(name, *words)
        if number != NOTHING:
            _judge(number)
        return number == DONE

    def _told(self, name: str, kind: Type[_Written], *words: Any) -> Optional[_Written]:
        """The output of a function, or None if there is nothing."""
        out = kind()
        return out if self._is_done(name, *words, byref(out)) else None  # type: ignore[arg-type]

    def _read(self, name: str, kind: Type[_Written], *words: Any) -> _Written:
        """The output of a function that always has one."""
        out = kind()
        self._do(name, *words, byref(out))  # type: ignore[arg-type]
        return out

    def _bytes(self, name: str, *words: Any, room: int = LONGEST_MESSAGE) -> Optional[Tuple[bytes, int]]:
        """Bytes that a function writes with how many bits or bytes they are, or None if there are none."""
        out, size = (c_uint8 * room)(), c_size_t()
        return (bytes(out), size.value) if self._is_done(name, *words, out, room, byref(size)) else None

    def _message(self, name: str, *words: Any) -> Optional[Bits]:
        found = self._bytes(name, *words)
        return None if found is None else _front(*found)


_AHandled = TypeVar("_AHandled", bound=_Handled)


class _Seen:
    """A connection at the last call of `events`, and whether a text was delivered since."""

    def __init__(self, at: Connection, is_delivered: bool = False) -> None:
        self.at, self.is_delivered = at, is_delivered

    def copy(self) -> _Seen:
        return _Seen(Connection.from_buffer_copy(self.at), self.is_delivered)


class Host(_Handled):
    """A host with the number `me`, which is down with each of its peers at first. `with` frees it at its end."""
    _free = "ncp_free"

    def __init__(self, me: SupportsIndex, peers: Iterable[SupportsIndex]) -> None:
        """Makes the host with these peers, in this order. Refused, in order: BadPeers, OutOfMemory."""
        super().__init__()
        numbers = _numbers(peers)
        self.me, self.peers = operator.index(me), tuple(numbers)
        self._nothing_seen()
        self._do("new", me, numbers, len(numbers))

    def _nothing_seen(self) -> None:
        self._seen: Dict[int, Tuple[bool, Optional[int]]] = {}  # of each peer whether it was up, and its last echo
        self._known: Dict[Key, _Seen] = {}
        self._dead: Dict[int, Set[int]] = {}  # the links to a peer on which a destination was dead
        self._held: Set[int] = set()  # the peers that were seen with a message held

    def copy(self) -> Host:
        """Another host in the same state, including that of `events`. The two are independent. Refused: OutOfMemory."""
        copy = Host.__new__(Host)
        _Handled.__init__(copy)
        with self._lock:
            copy.me, copy.peers, copy._seen, copy._held = self.me, self.peers, dict(self._seen), set(self._held)
            copy._known = {key: seen.copy() for key, seen in self._known.items()}
            copy._dead = {peer: set(links) for peer, links in self._dead.items()}
            self._do("copy", byref(copy._handle))
        return copy

    def save(self) -> bytes:
        """The host as bytes, for `load` and for pickle. They do not include the state of `events`. Refused: OutOfMemory."""
        size = c_size_t()
        with self._lock:
            number = self._answer("save", None, 0, byref(size))
            if number != SHORT_BUFFER:
                _judge(number)
            saved = self._bytes("save", room=size.value)
        return saved[0] if saved else b""

    @classmethod
    def load(cls, data: ReadableBuffer) -> Host:
        """The host that is saved as these bytes, which may be from anywhere; those that `save` made of any host are accepted. Its peers are
        in the order of their numbers, and its first `events` are all that there is. Refused: NotAHost, OtherVersion, OutOfMemory."""
        host, data = cls.__new__(cls), _bytes(data)
        _Handled.__init__(host)
        host._do("load", data, len(data))
        host.me = data[9]
        host._nothing_seen()
        host.peers = tuple(peer for peer in range(256) if host._answer("phase", peer, byref(Flags())) != UNKNOWN_PEER)
        host._dead = {peer: {*range(LINKS)} for peer in host.peers}
        return host

    def __reduce__(self) -> Tuple[Any, ...]:
        return Host.load, (self.save(),)

    # Messages.

    def receive(self, data: Union[ReadableBuffer, Bits], count: Optional[SupportsIndex] = None) -> Arrived:
        """Gives the host a message that arrived, with its leader: bytes, `count` bits of bytes, or a Bits.
        Refused, in order: TooLong, ShortBytes, SpareNotZero."""
        bits, arrived = _bits(data, count), _Arrived()
        with self._lock:
            sender = self._sender_of(bits) if bits.count >= 32 and len(bits.data) >= 4 and bits.data[0] & 15 == RFNM else None
            self._do("receive", bits.data, len(bits.data), bits.count, byref(arrived))
            if ARRIVED[arrived.what] == "answered":
                self._note_answer(arrived, sender)
        return Arrived(ARRIVED[arrived.what], *(getattr(arrived, name) for name in Arrived._fields[1:]))

    def next_output(self) -> Optional[Bits]:
        """The next message to send, with its leader, or None. Give it to the IMP."""
        with self._lock:
            message = self._message("next_output")
            sender = self._sender_of(message) if message is not None else None
            if sender is not None:
                self._note_less(sender)
        return message

    def outputs(self) -> Iterator[Bits]:
        """The messages to send, until none is ready."""
        while (message := self.next_output()) is not None:
            yield message

    def _sender_of(self, message: Bits) -> Optional[Key]:
        """The connection whose text this message is, or answers."""
        peer, link = message.host, message.link
        pair = self.pair_on(peer, True, link) if link >= FIRST_DATA_LINK and peer in self.peers else None
        return None if pair is None else (peer, *pair)

    def _note_answer(self, arrived: _Arrived, sender: Optional[Key]) -> None:
        """Notes a text that was delivered, and a message whose destination was dead."""
        if arrived.detail == RFNM and sender is not None:
            self._watch(*sender).is_delivered = True
        elif arrived.detail == DESTINATION_DEAD:
            self._dead.setdefault(arrived.peer, set()).add(arrived.link)

    def _note_less(self, key: Key) -> None:
        """Records the allocation of a sender after a text, and the text left at a receiver after a read: more than that is an event."""
        seen = self._known.get(key)
        now = self._state_if_any(*key) if seen else None
        if seen and now:
            seen.at.stored, seen.at.bits = min(seen.at.stored, now.stored), min(seen.at.bits, now.bits)
            seen.at.messages = min(seen.at.messages, now.messages)

    # Calls of a user.

    def reset(self, peer: SupportsIndex) -> None:
        """Ends all connections with a peer, and queues an RST once the data links to it are quiet: so a host comes up.
        Refused, in order: UnknownPeer, Busy (a reset is pending)."""
        self._do("reset", peer)

    def ask_send(self, peer: SupportsIndex, local: SupportsIndex, remote: SupportsIndex, size: SupportsIndex = 8, room: SupportsIndex = 65536) -> None:
        """Asks to send from the socket `local` here, which is odd, to the even socket `remote` of the peer, in bytes of `size` bits
        (1 to 255), with room for `room` bits that are queued (1 to 65,536).
        Refused, in order: UnknownPeer, NotUp, BadSex, BadSize, BadRoom, AlreadyAsked, Closing, TableFull, QueueFull, OutOfMemory."""
        with self._lock:
            self._do("ask_send", peer, local, remote, size, room)
            self._watch(peer, local, remote, True)

    def ask_receive(self, peer: SupportsIndex, local: SupportsIndex, remote: SupportsIndex, room: SupportsIndex = 65536) -> None:
        """Asks to receive at the socket `local` here, which is even, from the odd socket `remote` of the peer, with room for `room`
        bits that are held (1 to 65,536).
        Refused, in order: UnknownPeer, NotUp, BadSex, BadRoom, AlreadyAsked, Closing, TableFull, QueueFull, OutOfMemory."""
        with self._lock:
            self._do("ask_receive", peer, local, remote, room)
            self._watch(peer, local, remote, True)

    def give(self, peer: SupportsIndex, local: SupportsIndex, remote: SupportsIndex, data: Union[ReadableBuffer, Bits], count: Optional[SupportsIndex] = None) -> None:
        """Queues text to send: bytes, `count` bits of bytes, or a Bits, whole bytes of the connection's size. All of it, or nothing.
        Refused, in order: TooLong, ShortBytes, SpareNotZero, UnknownPeer, NotUp, NoEntry, Closing, NotOpen, WrongEnd, NotWhole, NoRoom."""
        bits = _bits(data, count)
        self._do("give", peer, local, remote, bits.data, len(bits.data), bits.count)

    def take(self, peer: SupportsIndex, local: SupportsIndex, remote: SupportsIndex, count: SupportsIndex = 0xFFFFFFFF) -> Bits:
        """Held text, the oldest first: as many whole bytes of the connection's size as are held and fit one message, `count` of them at
        most. Refused, in order: UnknownPeer, NotUp, NoEntry, Closing, NotOpen, WrongEnd."""
        out, size = (c_uint8 * LONGEST_MESSAGE)(), c_size_t()
        with self._lock:
            self._do("take", peer, local, remote, count, out, LONGEST_MESSAGE, byref(size))
            self._note_less(_key(peer, local, remote))
        return _front(out, size.value)

    def allocate(self, peer: SupportsIndex, local: SupportsIndex, remote: SupportsIndex, messages: SupportsIndex, bits: SupportsIndex) -> None:
        """Allows the sender this many more messages (up to 65,535 in all) and bits.
        Refused, in order: UnknownPeer, NotUp, NoEntry, Closing, NotOpen, WrongEnd, TooMuch, QueueFull."""
        self._do("allocate", peer, local, remote, messages, bits)

    def call_back(self, peer: SupportsIndex, local: SupportsIndex, remote: SupportsIndex, messages_128ths: SupportsIndex, bits_128ths: SupportsIndex) -> None:
        """Asks the sender to give back this many 128ths of its messages and of its bits.
        Refused, in order: UnknownPeer, NotUp, NoEntry, Closing, NotOpen, WrongEnd, Busy (the last one has had no RET), QueueFull."""
        self._do("call_back", peer, local, remote, messages_128ths, bits_128ths)

    def interrupt(self, peer: SupportsIndex, local: SupportsIndex, remote: SupportsIndex) -> None:
        """Interrupts the other side, by an INS if this side sends, else by an INR.
        Refused, in order: UnknownPeer, NotUp, NoEntry, Closing, NotOpen, QueueFull."""
        self._do("interrupt", peer, local, remote)

    def close(self, peer: SupportsIndex, local: SupportsIndex, remote: SupportsIndex) -> None:
        """Closes this side of a connection, or refuses what the peer asks, and drops what is stored.
        Refused, in order: UnknownPeer, NotUp, NoEntry, Closing, QueueFull."""
        with self._lock:
            self._do("close", peer, local, remote)
            self._watch(peer, local, remote, True).at.leaving = True  # also if nobody looks before it is gone

    def echo(self, peer: SupportsIndex, byte: SupportsIndex) -> None:
        """Asks the peer to echo a byte, 0 to 255. Refused, in order: UnknownPeer, NotUp, Busy (the last one has had no ERP), QueueFull."""
        self._do("echo", peer, byte)

    def wake(self, peer: SupportsIndex) -> None:
        """Makes the messages to a peer ready again that are held since their destination was dead. Refused: UnknownPeer."""
        with self._lock:
            self._do("wake", peer)
            self._held.discard(operator.index(peer))

    def restart(self, peer: SupportsIndex) -> None:
        """Makes each unanswered message to a peer ready again, for an IMP that restarted and lost its messages. One that had been
        delivered arrives twice then. Refused: UnknownPeer."""
        self._do("restart", peer)

    # State.

    def state(self, peer: SupportsIndex, local: SupportsIndex, remote: SupportsIndex) -> Connection:
        """The state of a connection. Refused, in order: UnknownPeer, NoEntry."""
        return self._read("state", Connection, peer, local, remote)

    def _state_if_any(self, peer: SupportsIndex, local: SupportsIndex, remote: SupportsIndex) -> Optional[Connection]:
        """The state of a connection, or None if there is none."""
        now = Connection()
        number = self._answer("state", peer, local, remote, byref(now))
        if number == NO_ENTRY:
            return None
        _judge(number)
        return now

    def phase(self, peer: SupportsIndex) -> Flags:
        """The flags for a peer. Refused: UnknownPeer."""
        return self._read("phase", Flags, peer)

    def is_up(self, peer: SupportsIndex) -> bool:
        """Whether the host is up with a peer: no flag is set. Refused: UnknownPeer."""
        return self.phase(peer) == Flags()

    def is_open(self, peer: SupportsIndex, local: SupportsIndex, remote: SupportsIndex) -> bool:
        """Whether both requests were made, and this side is not closing. Refused: UnknownPeer."""
        it = self._state_if_any(peer, local, remote)
        return it is not None and it.asked and it.heard and not it.leaving and not it.left

    def connections(self, peer: SupportsIndex) -> List[Tuple[int, int, Connection]]:
        """The connections with a peer: the sockets here and there, and the state of each, in the order of the sockets here. One with
        `heard` and without `asked` is a request of the peer. Refused: UnknownPeer."""
        found: List[Tuple[int, int, Connection]] = []
        with self._lock:
            while True:
                local, remote, known = c_uint32(), c_uint32(), Connection()
                if not self._is_done("connection_at", peer, len(found), byref(local), byref(remote), byref(known)):
                    return found
                found.append((local.value, remote.value, known))

    def room(self, peer: SupportsIndex, local: SupportsIndex, remote: SupportsIndex) -> int:
        """For how many bits a connection has room in all; 0 before it was asked for here. Refused, in order: UnknownPeer, NoEntry."""
        return int(self._read("room", c_uint32, peer, local, remote).value)

    def pair_on(self, peer: SupportsIndex, sends: bool, link: SupportsIndex) -> Optional[Tuple[int, int]]:
        """The sockets, here and there, of the connection that a link belongs to, or None: of the end that sends here, or that receives.
        Refused: UnknownPeer."""
        local, remote = c_uint32(), c_uint32()
        is_there = self._is_done("pair_on", peer, sends, link, byref(local), byref(remote))
        return (local.value, remote.value) if is_there else None

    def is_held(self, peer: SupportsIndex, link: SupportsIndex) -> bool:
        """Whether the message to a peer on a link is held since its destination was dead, so that a wake is wanted."""
        return bool(self._answer("is_held", peer, link))

    def echoed(self, peer: SupportsIndex) -> Optional[int]:
        """The byte of the last ERP that answered an echo, or None. Refused: UnknownPeer."""
        byte = self._told("echoed", c_uint8, peer)
        return None if byte is None else byte.value

    def errors(self, peer: SupportsIndex) -> List[Noted]:
        """The last sixteen ERRs that arrived, the oldest first. Refused: UnknownPeer."""
        with self._lock:
            found = [self._told("error", Noted, peer, place) for place in range(16)]
        return [it for it in found if it is not None]

    def counts(self, peer: SupportsIndex) -> Counted:
        """The numbers of arrivals from a peer that had no effect. Refused: UnknownPeer."""
        return self._read("counts", Counted, peer)

    def ignored(self) -> Discarded:
        """How many messages were of no peer."""
        return self._read("ignored", Discarded)

    def waiting(self, peer: SupportsIndex) -> List[bytes]:
        """The commands that are queued for a peer, as bytes, in their order; none if there is no such peer."""
        found: List[bytes] = []
        with self._lock:
            while command := self._bytes("waiting", peer, len(found), room=LONGEST_COMMAND):
                found.append(command[0][:command[1]])
        return found

    def kept(self, peer: SupportsIndex, link: SupportsIndex) -> Optional[Bits]:
        """The message to a peer on a link that has had no RFNM, with its leader, or None."""
        return self._message("kept", peer, link)

    def unacknowledged(self, peer: SupportsIndex) -> str:
        """One of UNACKNOWLEDGED: whether a message to a peer is unanswered, or is to be sent again (`message`), and whether one has an
        RST or an RRP (`reset`), so that one may arrive twice after a restart of the IMP. `restart` does not change it. Refused:
        UnknownPeer."""
        return UNACKNOWLEDGED[self._read("unacknowledged", c_uint32, peer).value]

    # Events.

    def changes(self, peer: SupportsIndex, local: SupportsIndex, remote: SupportsIndex, seen: Connection) -> Changes:
        """The changes of a connection since `seen`, which is then updated: `Connection()` before the first call.
        Refused: UnknownPeer."""
        changes = Changes()
        self._do("changes", peer, local, remote, byref(seen), byref(changes))
        return changes

    def _watch(self, peer: SupportsIndex, local: SupportsIndex, remote: SupportsIndex, asked: bool = False) -> _Seen:
        """Starts to record the state of a connection. If nobody asks for events, those that ended are forgotten from time to time."""
        if len(self._known) >= WATCHED * len(self.peers):
            there = {(at, *it[:2]) for at in self.peers for it in self.connections(at)}
            self._known = {key: seen for key, seen in self._known.items() if key in there}
        return self._known.setdefault(_key(peer, local, remote), _Seen(Connection(asked=asked)))

    def events(self) -> Iterator[Event]:
        """The events since the last call: of each peer, then of each connection. Call it after each message that arrived. Sent messages,
        reads and each RFNM are noted when they happen; of anything else that changed twice between two calls only the end is seen.
        Each event is returned once, also with two concurrent iterations. If more than WATCHED connections of a peer ended since the
        last call, some are forgotten."""
        for peer in self.peers:
            yield from self._look_at(peer)
        with self._lock:
            known = [*self._known]
        for key in known:
            yield from self._look_at_connection(key)

    def _look_at(self, peer: int) -> Iterator[Event]:
        with self._lock:
            now, before = (self.is_up(peer), self.echoed(peer)), self._seen.get(peer, (False, None))
            self._seen[peer] = now
            is_held, was_held = self._is_any_held(peer), peer in self._held
            (self._held.add if is_held else self._held.discard)(peer)
            for local, remote, _ in self.connections(peer):
                self._watch(peer, local, remote)
        if now[0] != before[0]:
            yield Event("up" if now[0] else "down", peer)
        if now[1] != before[1]:
            yield Event("echoed", peer, value=now[1])
        if is_held and not was_held:
            yield Event("held", peer)

    def _is_any_held(self, peer: int) -> bool:
        """Whether a message to a peer is held: on one of the links on which a destination was dead."""
        held = {link for link in self._dead.pop(peer, ()) if self.is_held(peer, link)}
        if held:
            self._dead[peer] = held
        return bool(held)

    def _look_at_connection(self, key: Key) -> Iterator[Event]:
        with self._lock:
            seen = self._known.get(key)
            if seen is None:
                return
            changes = self.changes(*key, seen.at)
            names, is_delivered = [name for name in Changes.names() if getattr(changes, name)], seen.is_delivered
            seen.is_delivered = False
            if not (seen.at.asked or seen.at.heard):
                del self._known[key]
            values: Dict[str, Union[int, Tuple[int, int]]] = {
                "asks": seen.at.link if seen.at.sends else seen.at.size, "text": seen.at.stored, "allowed": (seen.at.messages, seen.at.bits),
                "interrupted": seen.at.interrupts}
        for name in _with_delivery(names) if is_delivered else names:
            yield Event(name, *key, values.get(name))


def _key(*numbers: SupportsIndex) -> Key:
    peer, local, remote = map(operator.index, numbers)
    return peer, local, remote


def _with_delivery(names: List[str]) -> List[str]:
    """The changes of a connection, and that a text was delivered, which was before it ended."""
    if {"closed", "refused", "ended"} & {*names}:
        return ["delivered", *names]
    return [name for name in Changes.names() if name in names or name == "delivered"]


class Stream:
    """A connection that tracks the remaining space: it gives what fits, and allows what fits.

        line = Stream(host, 2, 3, 2)            # asks to send from socket 3 here to socket 2 of host 2
        line.write(text)                        # as much as fits now, and the rest from `pump`
        print(Stream(host, 2, 4, 5).read())     # a receiver: all text that is held; then it allows what fits

    Call `pump` after each message that arrived. Refusals of the host are raised, except NotOpen and QueueFull, which are temporary."""

    def __init__(self, host: Host, peer: SupportsIndex, local: SupportsIndex, remote: SupportsIndex, size: SupportsIndex = 8,
                 room: SupportsIndex = 8000, messages: SupportsIndex = 8) -> None:
        """Asks to send if the socket `local` is odd, else to receive; so it also accepts what the peer has asked for. `size` is the bits
        in a byte of a sender. There is room for `room` bits. A receiver keeps `messages` messages allowed.
        Refused as `Host.ask_send` and `Host.ask_receive`."""
        self.host, self.at = host, _key(peer, local, remote)
        self.sends = bool(self.at[1] % 2)
        self._size, self._messages = operator.index(size), operator.index(messages)
        self._waiting: Deque[Bits] = deque()
        self._given = 0  # bits of the first queued text
        self._is_finishing = False
        if self.sends:
            host.ask_send(*self.at, size, room)
        else:
            host.ask_receive(*self.at, room)

    @property
    def is_open(self) -> bool:
        """Whether both requests were made, and this side is not closing."""
        return self.host.is_open(*self.at)

    @property
    def is_over(self) -> bool:
        """Whether there is no such connection any more: it was closed, refused or reset."""
        return self.host._state_if_any(*self.at) is None

    @property
    def waits(self) -> int:
        """How many bits that were written have had no space yet."""
        return sum(text.count for text in self._waiting) - self._given

    @property
    def space(self) -> int:
        """How many bits more a sender may be given, or a receiver may allow, now: 0 unless it is open."""
        with self.host._lock:
            if not self.is_open:
                return 0
            it = self.host.state(*self.at)
            return self.host.room(*self.at) - it.stored - (0 if self.sends else it.bits)

    def give(self, data: Union[ReadableBuffer, Bits], count: Optional[SupportsIndex] = None) -> int:
        """Gives the front of a text, as many whole bytes of the connection as fit, and returns how many bits these are: 0 before it is
        open. Refused, in order: WrongEnd, ShortBytes, NotWhole, NoEntry, Closing."""
        with self.host._lock:
            return self._give(self._text(data, count))

    def _give(self, text: Bits, start: int = 0) -> int:
        given = start
        while piece := min(text.count - given, self.space, MOST_BITS) // self._size * self._size:
            self.host.give(*self.at, _cut(text, given, piece))
            given += piece
        return given - start

    def write(self, data: Union[ReadableBuffer, Bits], count: Optional[SupportsIndex] = None) -> None:
        """Gives a text: what fits now, and the rest from `pump`, in order. Refused as `give`, and first Closing after `finish`."""
        with self.host._lock:
            if self._is_finishing:
                _judge(CLOSING)
            self._waiting.append(self._text(data, count))
            self.pump()

    def _text(self, data: Union[ReadableBuffer, Bits], count: Optional[SupportsIndex]) -> Bits:
        """A text that can be given at this end, now or later."""
        text, it = _bits(data, count), self.host._state_if_any(*self.at)
        for is_refused, number in ((not self.sends, WRONG_END), (8 * len(text.data) < text.count, SHORT_BYTES), (text.count % self._size, NOT_WHOLE),
                                   (it is None, NO_ENTRY), (it and (it.leaving or it.left), CLOSING)):
            if is_refused:
                _judge(number)
        return text

    def read(self) -> Bits:
        """All text that is held; then it allows what fits. It is empty before the connection opens and once it is over.
        Refused: WrongEnd."""
        if self.sends:
            _judge(WRONG_END)
        pieces: List[Bits] = []
        with self.host._lock:
            while (it := self.host._state_if_any(*self.at)) and it.stored and not it.left:
                pieces.append(self.host.take(*self.at))
            self.allow()
        return _joined(pieces)

    def allow(self) -> int:
        """Allows the sender what fits: the remaining space, and messages up to the number that is kept allowed. Returns how many bits:
        0 before it is open. Refused: WrongEnd."""
        if self.sends:
            _judge(WRONG_END)
        with self.host._lock:
            bits, it = self.space, self.host._state_if_any(*self.at)
            if it is None or not self.is_open or not bits and it.messages:
                return 0
            try:
                self.host.allocate(*self.at, max(self._messages - it.messages, 0), bits)
            except QueueFull:
                return 0
        return bits

    def pump(self) -> None:
        """Gives queued text, or allows what fits, and closes after `finish`. Call it after each message that arrived."""
        with self.host._lock:
            if not self.sends:
                self.allow()
                return
            self._give_waiting()
            it = self.host._state_if_any(*self.at)
            if it is None:
                self._waiting.clear()
                self._given = 0
            elif self._is_finishing and not (self._waiting or it.stored or it.busy or it.leaving or it.left):
                self._close_if_room()

    def _give_waiting(self) -> None:
        while self._waiting:
            text = self._waiting[0]
            self._given += self._give(text, self._given)
            if self._given < text.count:
                return
            self._waiting.popleft()
            self._given = 0

    def _close_if_room(self) -> None:
        """Closes this side, or leaves that for later if too many commands are queued."""
        try:
            self.host.close(*self.at)
        except QueueFull:
            pass

    def finish(self) -> None:
        """Closes the connection once all that was written is delivered, and a receiver at once."""
        self._is_finishing = True
        if self.sends:
            self.pump()
        else:
            self.close()

    def close(self) -> None:
        """Closes this side at once, and drops what is not delivered; of what is closed or over, nothing."""
        try:
            self.host.close(*self.at)
        except (NoEntry, Closing):
            pass


def _cut(text: Bits, start: int, count: int) -> Bits:
    """A slice of a text, by its first bit and the number of bits."""
    first, last = start // 8, (start + count + 7) // 8
    number = int.from_bytes(text.data[first:last], "big") >> (8 * last - start - count)
    return _of_number(number, count)


def _of_number(number: int, count: int) -> Bits:
    """The last bits of a number."""
    return Bits(((number & (1 << count) - 1) << -count % 8).to_bytes((count + 7) // 8, "big"), count)


def _joined(pieces: Iterable[Bits]) -> Bits:
    """Texts, one after the other."""
    number = total = 0
    for data, count in pieces:
        number = number << count | int.from_bytes(data, "big") >> -count % 8
        total += count
    return _of_number(number, total)


class Subnet(_Handled):
    """The subnet between hosts: for each message the caller decides whether it is delivered, lost, or finds its destination dead; then
    the subnet answers its sender, and accepts the next one on its link. `with` frees it at its end."""
    _free = "ncp_subnet_free"

    def __init__(self, hosts: Iterable[SupportsIndex]) -> None:
        """Makes a subnet between hosts with these numbers. Refused: OutOfMemory."""
        super().__init__()
        numbers = _numbers(hosts)
        self.hosts = tuple(numbers)
        self._do("subnet_new", numbers, len(numbers))

    def accept(self, sender: SupportsIndex, data: Union[ReadableBuffer, Bits], count: Optional[SupportsIndex] = None) -> None:
        """Accepts a message that a host sends, as `next_output` returned it. Its destination and link are those of its leader.
        Refused, in order: TooLong, ShortBytes, SpareNotZero, NotRegular, NoHost, Occupied."""
        bits = _bits(data, count)
        self._do("subnet_accept", sender, bits.data, len(bits.data), bits.count)

    def deliver(self, sender: SupportsIndex, to: SupportsIndex, link: SupportsIndex) -> Optional[Bits]:
        """The message on a link as it arrives at the host `to`, for its `receive`, or None if there is none."""
        return self._message("subnet_deliver", sender, to, link)

    def lose(self, sender: SupportsIndex, to: SupportsIndex, link: SupportsIndex) -> bool:
        """Whether there was a message on a link, which is lost now."""
        return self._is_done("subnet_lose", sender, to, link)

    def dead(self, sender: SupportsIndex, to: SupportsIndex, link: SupportsIndex) -> bool:
        """Whether there was a message on a link, which found its destination dead now."""
        return self._is_done("subnet_dead", sender, to, link)

    def answer(self, sender: SupportsIndex, to: SupportsIndex, link: SupportsIndex) -> Optional[Bits]:
        """The answer to the sender about the message on a link, for its `receive`; None if there is none, or it may still be delivered."""
        return self._message("subnet_answer", sender, to, link)


class Capture:
    """A message file of version 2, which `ncp show` and Wireshark read: `Capture(open("mine.ncp", "wb"))`.

    Each record is written at once, in one write: if the program is killed, no record is lost, and the file ends after a record.
    One exception: if the program is killed during a write and the record crosses a page boundary of the file, Linux may write only a
    part of it; this does not apply to a pipe to another program, such as `cat`. After a failed write, an OSError, nothing more is
    written."""

    def __init__(self, file: BinaryIO) -> None:
        self._file, self._has_failed, self._lock = file, False, threading.Lock()
        self._write(b"NCPJ")

    def message(self, direction: SupportsIndex, at: SupportsIndex, bits: Union[ReadableBuffer, Bits]) -> None:
        """Writes a message at the interface of the host `at`, TO_IMP or FROM_IMP. What is no message is refused, as by `Host.receive`, and
        nothing of it is written."""
        if direction not in (TO_IMP, FROM_IMP):
            raise ValueError("the direction of a message is TO_IMP or FROM_IMP")
        data, count = _bits(bits, None)
        commands(data, count)  # judges bits: TooLong, ShortBytes, SpareNotZero
        self._write(_numbers((direction, at)) + count.to_bytes(2, "big") + data[:(count + 7) // 8])

    def _write(self, record: bytes) -> None:
        """Writes a record, without buffering any part of it."""
        with self._lock:
            if self._has_failed:
                raise OSError(errno.EIO, "an earlier record was not written whole")
            self._has_failed = True
            while record:
                record = record[self._taken(record):]
            self._file.flush()
            self._has_failed = False

    def _taken(self, record: bytes) -> int:
        """How many bytes the file takes of a record: all, but for a raw file without space."""
        taken = self._file.write(record)
        if taken == 0 or taken is None and isinstance(self._file, io.RawIOBase):
            raise BlockingIOError(errno.EAGAIN, os.strerror(errno.EAGAIN))
        return len(record) if taken is None else taken
