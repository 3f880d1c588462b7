"""An endpoint, and what it tells."""

from __future__ import annotations

import ctypes
import struct
import threading
from collections.abc import Iterable, Iterator
from dataclasses import dataclass
from enum import IntEnum
from functools import lru_cache
from typing import Any, Callable, NamedTuple, Union

from . import _native as native

_ROOM = 8192
_lib = native.lib
_address = ctypes.addressof

# What a feed tells of most frames, and what a take tells, read at once: to ask for field after field is slower.
_FED = struct.Struct("=QIIII")
_TAKEN = struct.Struct("=QIIII32s")
assert _FED.size == native.Fed.count.offset and _TAKEN.size == ctypes.sizeof(native.Taken)


class Code(IntEnum):
    """Why a call was refused."""

    CONNECTION_OVER = 1
    NOT_OPEN = 2
    NO_SESSION = 3
    NO_LINK = 4
    NO_DELIVERY = 5
    NOT_TAKEN = 6
    ALREADY_TOLD = 7
    MIXED_MODES = 8
    NOTHING_READY = 9
    TOO_MUCH_CREDIT = 10
    WINDOW_TOO_WIDE = 11
    FULL = 12
    BAD_ERROR = 13
    NO_ENDPOINT = 20
    NO_MEMORY = 21
    IN_USE = 22
    BAD_SETTINGS = 23
    TOO_MANY_LIMITS = 24
    BAD_LIMIT = 25
    SAME_PREFIX = 26
    BAD_OUTCOME = 27
    UNSENT = 28
    ANSWER_LOST = 29
    RECORD_LOST = 30
    NULL = 31
    NOT_WHOLE = 32


_TEXTS = {
    Code.CONNECTION_OVER: "the connection is over, or this side has closed it",
    Code.NOT_OPEN: "the connection is not open",
    Code.NO_SESSION: "no session is live on this channel",
    Code.NO_LINK: "no link is live at this handle",
    Code.NO_DELIVERY: "no open delivery has this id, or the last id of the range is behind its first",
    Code.NOT_TAKEN: "a delivery that is named was not taken",
    Code.ALREADY_TOLD: "the sender was told what became of a delivery that is named, and has to settle it",
    Code.MIXED_MODES: "deliveries of the modes first and second cannot be settled at once",
    Code.NOTHING_READY: "no delivery of the link is ready",
    Code.TOO_MUCH_CREDIT: "credit and open deliveries would be more than the link allows",
    Code.WINDOW_TOO_WIDE: "the window would pass 2147483647 places",
    Code.FULL: "the output has less than 2560 free bytes",
    Code.BAD_ERROR: "the condition is not 1 to 64 printable characters, or the description not at most 255 bytes of UTF-8",
    Code.NO_ENDPOINT: "the endpoint was freed",
    Code.NO_MEMORY: "memory was refused",
    Code.IN_USE: "the handle holds an endpoint",
    Code.BAD_SETTINGS: "a setting is outside its range",
    Code.TOO_MANY_LIMITS: "the table of limits has more than 16 rows",
    Code.BAD_LIMIT: "a prefix has not 1 to 255 bytes, or a number of its row is outside its range",
    Code.SAME_PREFIX: "a row of the limits has the prefix of an earlier one",
    Code.BAD_OUTCOME: "this is no outcome",
    Code.UNSENT: "bytes for the peer or records wait to be moved out",
    Code.ANSWER_LOST: "memory for an answer was refused, which is lost",
    Code.RECORD_LOST: "memory for a record was refused, which is lost",
    Code.NULL: "a pointer is NULL, but its length is not 0",
    Code.NOT_WHOLE: "the bytes are no whole head, batch, entry, end, floor or position of a spool",
}


class AmqpError(Exception):
    """A call was refused. Nothing has changed, but at ANSWER_LOST and RECORD_LOST: an answer or a record is lost then."""

    def __init__(self, code: Code) -> None:
        super().__init__(_TEXTS[code])
        self.code = code


class StarvedError(MemoryError):
    """Memory for a frame was refused. It waits in the endpoint: feed `rest`, which was not taken, and it is tried again. Wait for
    memory first: a loop that feeds again at once may never end."""

    def __init__(self, rest: bytes) -> None:
        super().__init__("memory for a frame was refused, which waits")
        self.rest = rest


class AddressKind(IntEnum):
    """What a link's target says of its node: its address, a string (NAMED); no address, where the sender asks for a node to be made
    (DYNAMIC) or for none (ABSENT); that there is no target; or an address that is no string, or a target of another type (OTHER)."""

    NAMED = 0
    DYNAMIC = 1
    ABSENT = 2
    NO_TARGET = 3
    OTHER = 4


class Outcome(IntEnum):
    """What became of a message."""

    ACCEPTED = 0
    REJECTED = 1
    RELEASED = 2
    MODIFIED = 3
    MODIFIED_FAILED = 4
    MODIFIED_UNDELIVERABLE = 5
    MODIFIED_FAILED_UNDELIVERABLE = 6


class Scope(IntEnum):
    """What ended with an error."""

    CONNECTION = 1
    SESSION = 2
    LINK = 3


class End(IntEnum):
    """How a connection stood at the end of its input."""

    FAILED = 1
    CLOSED = 2
    INSIDE = 3
    BETWEEN = 4


class Condition(IntEnum):
    """Why something ended."""

    OTHER = 0
    FRAMING_ERROR = 1
    DECODE_ERROR = 2
    INVALID_FIELD = 3
    ILLEGAL_STATE = 4
    NOT_IMPLEMENTED = 5
    RESOURCE_LIMIT_EXCEEDED = 6
    FRAME_SIZE_TOO_SMALL = 7
    WINDOW_VIOLATION = 8
    HANDLE_IN_USE = 9
    UNATTACHED_HANDLE = 10
    TRANSFER_LIMIT_EXCEEDED = 11
    MESSAGE_SIZE_EXCEEDED = 12

    @property
    def symbol(self) -> str:
        """Its name in the standard, as ``amqp:decode-error``; empty for OTHER."""
        return _SYMBOLS[self]


_SYMBOLS = (
    "",
    "amqp:connection:framing-error",
    "amqp:decode-error",
    "amqp:invalid-field",
    "amqp:illegal-state",
    "amqp:not-implemented",
    "amqp:resource-limit-exceeded",
    "amqp:frame-size-too-small",
    "amqp:session:window-violation",
    "amqp:session:handle-in-use",
    "amqp:session:unattached-handle",
    "amqp:link:transfer-limit-exceeded",
    "amqp:link:message-size-exceeded",
)


@dataclass(frozen=True)
class Error:
    """Why a link or a message is refused, or a connection closed: the peer gets these words.

    `condition` is a symbol of 1 to 64 printable characters of ASCII: one of :mod:`wuleshomia.conditions`, or one of your own. `text` is
    for people, and at most 255 bytes of UTF-8. A call with other words is refused with BAD_ERROR; a NUL in them is a ValueError."""

    condition: str
    text: str | None = None


class Receipt(IntEnum):
    """What a step of serving did with the message that was ready."""

    NONE = 0
    REFUSED = 1
    SETTLED = 2
    TOLD = 3
    UNTOLD = 4


@dataclass(frozen=True)
class Opened:
    """The peer's open came."""


@dataclass(frozen=True)
class Begun:
    """A session began."""

    channel: int


@dataclass(frozen=True)
class Attached:
    """A link attached. It sends nothing before :meth:`Endpoint.grant`."""

    channel: int
    handle: int


@dataclass(frozen=True)
class Unfinished:
    """A message goes on."""

    channel: int
    handle: int


@dataclass(frozen=True)
class Ready:
    """A message is whole: :meth:`Endpoint.take` hands it up."""

    channel: int
    handle: int


@dataclass(frozen=True)
class Aborted:
    """The sender gave a message up."""

    channel: int
    handle: int


@dataclass(frozen=True)
class Drained:
    """The sender used its credit up, as :meth:`Endpoint.drain` asked."""

    channel: int
    handle: int


@dataclass(frozen=True)
class Settled:
    """The sender settled so many deliveries."""

    channel: int
    count: int


@dataclass(frozen=True)
class Detached:
    """The peer detached a link, and so many ready messages were dropped."""

    channel: int
    handle: int
    dropped: int


@dataclass(frozen=True)
class Ended:
    """The peer ended a session, and so many ready messages were dropped."""

    channel: int
    dropped: int


@dataclass(frozen=True)
class Closed:
    """The peer closed the connection, and so many ready messages were dropped."""

    dropped: int


@dataclass(frozen=True)
class Failed:
    """This side ended something with an error, as the peer broke a rule. `channel` and `handle` count as `scope` says."""

    scope: Scope
    channel: int
    handle: int
    condition: Condition
    dropped: int


Event = Union[
    Opened, Begun, Attached, Unfinished, Ready, Aborted, Drained, Settled, Detached, Ended, Closed, Failed
]

# Events are values, so that one stands for all that are equal.
_ready = lru_cache(maxsize=4096)(Ready)
_unfinished = lru_cache(maxsize=4096)(Unfinished)

_EVENTS: dict[int, Callable[[native.Fed], Event]] = {
    1: lambda f: Opened(),
    2: lambda f: Begun(f.channel),
    3: lambda f: Attached(f.channel, f.handle),
    4: lambda f: _unfinished(f.channel, f.handle),
    5: lambda f: _ready(f.channel, f.handle),
    6: lambda f: Aborted(f.channel, f.handle),
    7: lambda f: Drained(f.channel, f.handle),
    8: lambda f: Settled(f.channel, f.count),
    9: lambda f: Detached(f.channel, f.handle, f.count),
    10: lambda f: Ended(f.channel, f.count),
    11: lambda f: Closed(f.count),
    12: lambda f: Failed(Scope(f.scope), f.channel, f.handle, Condition(f.condition), f.count),
}
_MORE, _EVENT, _BLOCKED, _STARVED, _DEAD = 1, 2, 3, 4, 5
_READY = 5


class Message(NamedTuple):
    """A message as it was sent: `body` is its sections, which are not looked into."""

    id: int
    tag: bytes
    format: int
    settled: bool
    body: bytes


@dataclass(frozen=True)
class Record:
    """A message that a step of serving recorded."""

    channel: int
    handle: int
    id: int
    format: int
    body: bytes


@dataclass(frozen=True)
class Step:
    """What a step of serving came to."""

    event: Event | None
    receipt: Receipt
    refusal: Code | None
    widened: int
    granted: int
    refused: int
    records: tuple[Record, ...]


@dataclass(frozen=True)
class Link:
    """How a live link stands. `source` and `target` are as its attach spells them. `address` is that of its target: a text if
    `address_kind` is NAMED, else None. It is the link at `handle` of the session on `channel`."""

    name: str
    credit: int
    opened: int
    ready: int
    allowed: int
    max_message: int
    source: bytes
    target: bytes
    address: str | None
    address_kind: AddressKind
    channel: int
    handle: int


@dataclass(frozen=True)
class Limit:
    """Other bounds for links whose names begin with `prefix`: 1 to 1024 deliveries of 1 to 1073741824 bytes."""

    prefix: str
    allowed: int
    max_message: int


_BUSY = "another thread is in a call of this endpoint"


def _word(value: int, name: str, most: int = 0xFFFFFFFF) -> int:
    """A number that may cross: ctypes would cut it, and say nothing."""
    if type(value) is int and 0 <= value <= most:
        return value
    if isinstance(value, bool) or not isinstance(value, int):
        raise TypeError(f"{name} is an int, not {type(value).__name__}")
    if not 0 <= value <= most:
        raise ValueError(f"{name} is from 0 to {most}, not {value}")
    return int(value)


def _outcome(value: Outcome) -> int:
    return value if type(value) is Outcome else Outcome(_word(value, "outcome"))


def _text(value: str, name: str) -> bytes:
    if not isinstance(value, str):
        raise TypeError(f"{name} is a str, not {type(value).__name__}")
    return value.encode()


def _ended(value: str, name: str) -> bytes:
    """A text that crosses without its length: a NUL in it would end it."""
    data = _text(value, name)
    if b"\0" in data:
        raise ValueError(f"{name} has a NUL character")
    return data


def _words(error: Error) -> tuple[bytes, bytes | None]:
    if not isinstance(error, Error):
        raise TypeError(f"error is an Error, not {type(error).__name__}")
    return _ended(error.condition, "condition"), None if error.text is None else _ended(error.text, "text")


def _rejected(outcome: Outcome | None, error: Error) -> tuple[bytes, bytes | None]:
    """The words of an error, which goes with no outcome but REJECTED."""
    if outcome is not None and _outcome(outcome) != Outcome.REJECTED:
        raise ValueError(f"an error goes with REJECTED, not with {Outcome(outcome).name}")
    return _words(error)


def _check(code: int) -> None:
    if code == Code.NO_MEMORY:
        raise MemoryError("memory was refused, and nothing has changed")
    if code:
        raise AmqpError(Code(code))


class Endpoint:
    """One connection. What it has is freed with it, or by :meth:`free`.

    It is for one thread at a time: a call while another thread is in one is a RuntimeError. A call on one that was freed is an
    AmqpError with NO_ENDPOINT. A wrong type is a TypeError, a number outside its range a ValueError; nothing has changed then.
    """

    def __init__(
        self,
        container_id: str,
        *,
        max_frame: int = 65536,
        channel_max: int = 7,
        handle_max: int = 7,
        allowed: int = 16,
        max_message: int = 1 << 20,
        window: int = 2048,
        idle_time_out: int = 0,
        limits: Iterable[Limit] = (),
    ) -> None:
        self._handle = native.Handle()
        self._lock = threading.Lock()
        self._acquire, self._release = self._lock.acquire, self._lock.release
        name = _text(container_id, "container_id")
        settings = native.Settings(
            _word(max_frame, "max_frame"),
            _word(channel_max, "channel_max"),
            _word(handle_max, "handle_max"),
            _word(allowed, "allowed"),
            _word(max_message, "max_message"),
            _word(window, "window"),
            _word(idle_time_out, "idle_time_out"),
        )
        table = list(limits)
        rows = (native.Limit * max(1, len(table)))()
        for row, limit in zip(rows, table):
            if not isinstance(limit, Limit):
                raise TypeError(f"a limit is a Limit, not {type(limit).__name__}")
            prefix = _text(limit.prefix, "prefix")
            row.allowed = _word(limit.allowed, "allowed")
            row.max_message = _word(limit.max_message, "max_message")
            row.prefix_len = len(prefix)
            ctypes.memmove(row.prefix, prefix, min(len(prefix), 256))
        self._at = _address(self._handle)
        self._fed, taken = native.Fed(), native.Taken()
        self._told, self._into_fed = memoryview(self._fed).cast("B"), _address(self._fed)
        self._taken, self._into_taken = memoryview(taken).cast("B"), _address(taken)
        self._step = native.Step()
        self._room = ctypes.create_string_buffer(_ROOM)
        self._room_at = _address(self._room)
        self._out = bytearray()
        at_fault = ctypes.c_size_t()
        code = _lib.wule_open(self._at, _address(settings), name, len(name), _address(rows), len(table), _address(at_fault))
        if code in (Code.BAD_SETTINGS, Code.TOO_MANY_LIMITS):
            raise ValueError(_TEXTS[Code(code)])
        if code in (Code.BAD_LIMIT, Code.SAME_PREFIX):
            raise ValueError(f"row {at_fault.value} of the limits: {_TEXTS[Code(code)]}")
        _check(code)

    def __del__(self) -> None:
        if getattr(self, "_at", None) is not None:
            _lib.wule_free(self._at)

    def __enter__(self) -> Endpoint:
        return self

    def __exit__(self, *exc: object) -> None:
        self.free()

    def __copy__(self) -> Endpoint:
        raise TypeError("an endpoint is not copied")

    def __deepcopy__(self, memo: object) -> Endpoint:
        raise TypeError("an endpoint is not copied")

    def __reduce__(self) -> str:
        raise TypeError("an endpoint is not pickled")

    def _call(self, function: Any, *words: Any) -> int:
        """One call, while no other thread is in one."""
        if not self._acquire(False):
            raise RuntimeError(_BUSY)
        try:
            return function(self._at, *words)
        finally:
            self._release()

    def free(self) -> None:
        """Frees what it has. Each later call is refused with NO_ENDPOINT, and a further free does nothing."""
        self._call(_lib.wule_free)

    # Bytes ---------------------------------------------------------------------------------------------------------------

    def feed(self, data: bytes | bytearray | memoryview) -> Iterator[Event]:
        """Takes bytes of the peer, and yields an event for each frame that came to one. Handle each event before the next, and
        iterate to the end: bytes are taken only then. Those after the end of the connection are dropped. Raises StarvedError if
        memory for a frame was refused: it has the bytes that were not taken."""
        if not isinstance(data, (bytes, bytearray, memoryview)):
            raise TypeError(f"data is bytes, not {type(data).__name__}")
        return self._events(bytes(data))

    def _events(self, data: bytes) -> Iterator[Event]:
        feed, fed, told, into, at = _lib.wule_feed, self._fed, self._told, self._into_fed, self._at
        acquire, release, unpack = self._acquire, self._release, _FED.unpack_from
        place = native.address_of(data)
        end = place + len(data)
        while True:
            if not acquire(False):
                raise RuntimeError(_BUSY)
            code = feed(at, place, end - place, into)
            used, outcome, event, channel, handle = unpack(told)
            other = _EVENTS[event](fed) if outcome == _EVENT and event != _READY and not code else None
            release()
            if code:
                _check(code)
            place += used
            if outcome == _EVENT:
                yield other or _ready(channel, handle)
            elif outcome == _BLOCKED:
                self._move_out()
                continue
            elif outcome == _STARVED:
                raise StarvedError(data[len(data) - (end - place) :])
            elif outcome == _DEAD:
                return
            if place == end:
                return

    def _move_out(self) -> None:
        while count := self._call(_lib.wule_output, self._room_at, _ROOM):
            self._out += self._room[:count]

    def output(self) -> bytes:
        """The bytes for the peer that wait: write them in this order."""
        self._move_out()
        out = bytes(self._out)
        self._out.clear()
        return out

    @property
    def has_output(self) -> bool:
        """Whether bytes for the peer wait."""
        return bool(self._out) or bool(self._call(_lib.wule_has_output))

    def close(self, error: Error | None = None) -> int:
        """Closes the connection, with an error if one is given, and returns how many ready messages were dropped. Feed on until
        `Closed`."""
        return self._count(_lib.wule_close) if error is None else self._count(_lib.wule_close_with, *_words(error))

    def heartbeat(self) -> None:
        """Writes an empty frame, for a peer that asked for an idle-time-out."""
        self._write(_lib.wule_heartbeat)

    def finish(self) -> End:
        """The input has ended: how the connection stood. It is over then; what waits for the peer is left."""
        inside = ctypes.c_uint64()
        code = self._call(_lib.wule_finish, _address(inside))
        if code == 0:
            raise AmqpError(Code.NO_ENDPOINT)
        return End(code)

    @property
    def is_over(self) -> bool:
        """Whether the connection is over, or the endpoint was freed."""
        return bool(self._call(_lib.wule_is_over))

    # Sessions and their links --------------------------------------------------------------------------------------------

    def _write(self, function: Any, *words: Any) -> None:
        """A call that writes a frame. If the output has no room, what waits there is taken aside first."""
        if code := self._call(function, *words):
            self._again(code, function, *words)

    def _again(self, code: int, function: Any, *words: Any) -> None:
        if code == Code.FULL:
            self._move_out()
            code = self._call(function, *words)
        _check(code)

    def _count(self, function: Any, *words: Any) -> int:
        count = native.u32()
        self._write(function, *words, _address(count))
        return count.value

    def grant(self, channel: int, handle: int, n: int) -> None:
        """Lets the sender on a link send n messages more."""
        self._write(_lib.wule_grant, _word(channel, "channel"), _word(handle, "handle"), _word(n, "n"))

    def widen(self, channel: int, n: int) -> None:
        """Lets the senders of a session send n transfer frames more."""
        self._write(_lib.wule_widen, _word(channel, "channel"), _word(n, "n"))

    def drain(self, channel: int, handle: int) -> None:
        """Asks the sender on a link to use its credit up: `Drained` tells that it did."""
        self._write(_lib.wule_drain, _word(channel, "channel"), _word(handle, "handle"))

    def settle(self, channel: int, id: int, outcome: Outcome | None = None, *, error: Error | None = None) -> None:
        """Tells the sender what became of a message that was taken: ACCEPTED, if no outcome is given. With an `error` it is REJECTED,
        and the sender is told why; another outcome beside it is a ValueError."""
        if error is not None:
            self._write(_lib.wule_settle_with, _word(channel, "channel"), _word(id, "id"), *_rejected(outcome, error))
            return
        words = (_word(channel, "channel"), _word(id, "id"), Outcome.ACCEPTED if outcome is None else _outcome(outcome))
        if code := self._call(_lib.wule_settle, *words):
            self._again(code, _lib.wule_settle, *words)

    def settle_range(
        self, channel: int, first: int, last: int, outcome: Outcome | None = None, *, error: Error | None = None
    ) -> int:
        """The same of all whose ids lie from first to last, by one frame. Returns how many they are."""
        words = (_word(channel, "channel"), _word(first, "first"), _word(last, "last"))
        if error is not None:
            return self._count(_lib.wule_settle_range_with, *words, *_rejected(outcome, error))
        return self._count(_lib.wule_settle_range, *words, Outcome.ACCEPTED if outcome is None else _outcome(outcome))

    def detach(self, channel: int, handle: int) -> int:
        """Ends a link, and returns how many ready messages were dropped."""
        return self._count(_lib.wule_detach, _word(channel, "channel"), _word(handle, "handle"))

    def refuse(self, channel: int, handle: int, error: Error) -> int:
        """Ends a link, and tells its sender why. Returns how many ready messages were dropped: none, if it was never granted credit."""
        return self._count(_lib.wule_refuse, _word(channel, "channel"), _word(handle, "handle"), *_words(error))

    def top_up(self, channel: int, credit: int, window: int) -> None:
        """Gives each link of a session whose credit is at most half of `credit` what it lacks of `credit`, but at most what the link
        is allowed less its credit and its open deliveries; and the session's window what it lacks of `window`, if at most half is
        left."""
        words = (_word(channel, "channel"), _word(credit, "credit"), _word(window, "window"))
        while (code := self._call(_lib.wule_top_up, *words)) == Code.FULL:
            self._move_out()
        _check(code)

    # Messages ------------------------------------------------------------------------------------------------------------

    def take(self, channel: int, handle: int) -> Message:
        """Hands the first whole message of a link up. It is open until it is settled."""
        channel, handle = _word(channel, "channel"), _word(handle, "handle")
        if not self._acquire(False):
            raise RuntimeError(_BUSY)
        try:
            code = _lib.wule_take(self._at, channel, handle, self._into_taken, self._room_at, _ROOM)
            if code:
                _check(code)
            size, id, format, settled, tag_len, tag = _TAKEN.unpack(self._taken)
            if size <= _ROOM:
                body = self._room[:size]
            else:
                room = ctypes.create_string_buffer(size)
                _lib.wule_message_read(self._at, 0, _address(room), size)
                body = room.raw
                _lib.wule_message_drop(self._at)
        finally:
            self._release()
        return Message(id, tag[:tag_len], format, settled == 1, body)

    # How it stands -------------------------------------------------------------------------------------------------------

    @property
    def held(self) -> int:
        """The bytes that count as held. 0 if it was freed."""
        return self._call(_lib.wule_held)

    def window(self, channel: int) -> int:
        """The places that are left of a session's window."""
        places = native.u32()
        _check(self._call(_lib.wule_window, _word(channel, "channel"), _address(places)))
        return places.value

    def link(self, channel: int, handle: int) -> Link:
        """How a live link stands."""
        channel, handle = _word(channel, "channel"), _word(handle, "handle")
        name, state = ctypes.create_string_buffer(256), native.LinkState()
        _check(self._call(_lib.wule_link, channel, handle, _address(state), _address(name), 256))
        source = ctypes.create_string_buffer(state.source_len + 1)
        _check(self._call(_lib.wule_link_source, channel, handle, _address(source), state.source_len))
        target = ctypes.create_string_buffer(state.target_len + 1)
        _check(self._call(_lib.wule_link_target, channel, handle, _address(target), state.target_len))
        address, text = native.Address(), ctypes.create_string_buffer(state.target_len + 1)
        _check(self._call(_lib.wule_link_address, channel, handle, _address(address), _address(text), state.target_len))
        kind = AddressKind(address.kind)
        return Link(
            name[: state.name_len].decode(),
            state.credit,
            state.opened,
            state.ready,
            state.allowed,
            state.max_message,
            source[: state.source_len],
            target[: state.target_len],
            text[: address.len].decode() if kind is AddressKind.NAMED else None,
            kind,
            channel,
            handle,
        )

    # Serving -------------------------------------------------------------------------------------------------------------

    def serve(
        self,
        data: bytes | bytearray | memoryview,
        *,
        credit: int = 16,
        mark: int | None = None,
        outcome: Outcome = Outcome.ACCEPTED,
    ) -> Iterator[Step]:
        """Serves bytes of the peer, and yields a step for each frame. A message that is whole is recorded, settled by `outcome`
        unless its sender settled it, and links are topped up to `credit` if they have at most `mark`, by default one less. Keep a
        step's records before its output is written. Raises StarvedError as :meth:`feed` does; after an AmqpError with ANSWER_LOST or
        RECORD_LOST, give the connection up."""
        if not isinstance(data, (bytes, bytearray, memoryview)):
            raise TypeError(f"data is bytes, not {type(data).__name__}")
        most = max(_word(credit, "credit") - 1, 0) if mark is None else _word(mark, "mark")
        return self._steps(bytes(data), native.Rule(credit, most, _outcome(outcome)))

    def _steps(self, data: bytes, rule: native.Rule) -> Iterator[Step]:
        step = self._step
        place = native.address_of(data)
        end = place + len(data)
        while True:
            self._move_out()
            code = self._call(_lib.wule_serve_step, _address(rule), place, end - place, _address(step))
            fed = step.fed
            if code == Code.NO_MEMORY:
                raise StarvedError(data[len(data) - (end - place) + fed.used :])
            _check(code)
            place += fed.used
            records = bytearray()
            while count := self._call(_lib.wule_records, self._room_at, _ROOM):
                records += self._room[:count]
            yield Step(
                _EVENTS[fed.event](fed) if fed.outcome == _EVENT else None,
                Receipt(step.receipt),
                Code(step.refusal) if step.refusal else None,
                step.widened,
                step.granted,
                step.refused,
                tuple(_records(bytes(records))),
            )
            if place == end or fed.outcome == _DEAD:
                return


def _records(data: bytes) -> Iterator[Record]:
    at = 0
    while at < len(data):
        channel, handle, id, format, size = struct.unpack_from(">HIIII", data, at)
        at += 18
        yield Record(channel, handle, id, format, data[at : at + size])
        at += size
