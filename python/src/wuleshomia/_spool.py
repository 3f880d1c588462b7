"""The records of a gateway's spool, read beside it."""

from __future__ import annotations

import ctypes
import fcntl
import os
import re
import struct
import time
import warnings
from collections import deque
from collections.abc import Generator, Iterator
from enum import IntEnum
from typing import Any, NamedTuple, Union

from . import _native as native
from ._endpoint import _word

_lib = native.lib
_address = ctypes.addressof

# What is told of an entry, read at once: its length, its kind, its link, its connection; then where its parts begin and how long they
# are: peer, container-id, name, user; the kind of the target and a word that is free; target, tag, record.
_ENTRY = struct.Struct("=QIIQ8QII6Q")
_RECORD = struct.Struct(">HIIII")
assert _ENTRY.size == ctypes.sizeof(native.SpoolEntry)

_NUMBER_MOST = (1 << 64) - 1
_TRIES = 8  # `end` is written over in place, so that a read may find half of it
_LOCK_SECONDS = 2.0
_MOST_CONSUMERS = 64
_NAME = re.compile(r"[a-z0-9][a-z0-9_-]{0,63}")


class _Size(IntEnum):
    """How many bytes each of these has."""

    HEAD = 80
    BATCH_HEAD = 32
    END = 56
    FLOOR = 40
    POSITION = 71
    RECORD_HEAD = 18


class _Kind(IntEnum):
    """What an entry is."""

    INTRODUCTION = 1
    RECORD = 2


class TargetKind(IntEnum):
    """What the target of a link is: its address (ADDRESS); no address, where the sender asks for a node to be made (DYNAMIC); no target, or
    one without an address (NONE); or anything else (OTHER)."""

    ADDRESS = 0
    DYNAMIC = 1
    NONE = 2
    OTHER = 3


# What is wrong ---------------------------------------------------------------------------------------------------------------


class SpoolError(Exception):
    """A spool can't be read further, or a call of a consumer was refused."""


class Gap(SpoolError):
    """The records `first` to `last` are gone: the gateway has removed them before they were read here. The next call goes on after
    them."""

    def __init__(self, first: int, last: int) -> None:
        super().__init__(f"the records {first} to {last} are gone")
        self.first, self.last = first, last


class SpoolDamaged(SpoolError):
    """A segment is damaged from byte `place` on, so that the records `first` to `last` can't be read. The next call goes on after
    them."""

    def __init__(self, segment: str, place: int, first: int, last: int) -> None:
        super().__init__(f"{segment} is damaged at byte {place}: the records {first} to {last} can't be read")
        self.segment, self.place, self.first, self.last = segment, place, first, last


class OtherSpool(SpoolError):
    """The directory has another spool than the position of the consumer, or than it had before: its numbers mean other records."""


class Locked(SpoolError):
    """Another process reads as this consumer, or has held the lock of all consumers for two seconds."""


class NoConsumer(SpoolError):
    """The spool has no consumer of this name: `amqp spool add` makes one."""


# Records ---------------------------------------------------------------------------------------------------------------------


class SpoolRecord(NamedTuple):
    """A message, and what the spool says of it. The id of the spool, in hex, and the number are its key: they never stand for another
    message. `time` is when it arrived, in milliseconds since 1970, and `life` how often the gateway had been started then.

    Texts are those of the peer. A byte that is no UTF-8 stands in them as one of U+DC80 to U+DCFF, as in file names. `user` is None if
    none is known, and `address` if the target is no address; `target` has its bytes."""

    spool: str
    number: int
    time: int
    life: int
    connection: int
    peer: str
    container: str
    user: str | None
    link: str
    address: str | None
    target_kind: TargetKind
    target: bytes
    tag: bytes
    channel: int
    handle: int
    id: int
    format: int
    message: bytes
    reader: Spool

    def ack(self) -> None:
        """Acknowledges it, and all before it: see :meth:`Spool.ack`."""
        self.reader.ack(self.number)


Sender = tuple[int, str, str, Union[str, None], str, Union[str, None], TargetKind, bytes]


def _text(data: bytes) -> str:
    return data.decode(errors="surrogateescape")


def _sender(entry: bytes, fields: tuple[int, ...]) -> Sender:
    """Who sends on a link, by its introduction."""
    peer, container, name, user, target = (entry[fields[at] : fields[at] + fields[at + 1]] for at in (4, 6, 8, 10, 14))
    kind = TargetKind(fields[12])
    address = _text(target) if kind is TargetKind.ADDRESS else None
    return (fields[3], _text(peer), _text(container), _text(user) or None, _text(name), address, kind, target)


# Files -----------------------------------------------------------------------------------------------------------------------


def _read_at(fd: int, at: int, size: int) -> bytes:
    """Bytes of a file from a place on: fewer, if it ends before."""
    data = os.pread(fd, size, at)
    while 0 < len(data) < size:
        more = os.pread(fd, size - len(data), at + len(data))
        if not more:
            break
        data += more
    return data


def _parsed(kind: Any, read: Any, data: bytes | None) -> Any:
    """What bytes say, or None if they are not whole."""
    if data is None:
        return None
    told = kind()
    return None if read(native.address_of(data), len(data), _address(told)) else told


def _parsed_head(data: bytes | None) -> native.SpoolHead | None:
    return _parsed(native.SpoolHead, _lib.wule_spool_read_head, data)


def _parsed_end(data: bytes | None) -> native.SpoolEnd | None:
    return _parsed(native.SpoolEnd, _lib.wule_spool_read_end, data)


def _parsed_floor(data: bytes | None) -> native.SpoolFloor | None:
    return _parsed(native.SpoolFloor, _lib.wule_spool_read_floor, data)


def _parsed_position(data: bytes | None) -> native.SpoolPosition | None:
    return _parsed(native.SpoolPosition, _lib.wule_spool_read_position, data)


def _segment_name(first: int) -> str:
    return f"{first:020}.seg"


def _file(status: os.stat_result) -> tuple[int, int]:
    return status.st_dev, status.st_ino


def _is_locked(fd: int) -> bool:
    """Locks a file, unless another process has. Returns whether it did."""
    try:
        fcntl.flock(fd, fcntl.LOCK_EX | fcntl.LOCK_NB)
    except BlockingIOError:
        return False
    return True


class _Directory:
    """The files of a spool's directory."""

    def __init__(self, path: str | os.PathLike[str]) -> None:
        self.path = os.fsdecode(path)
        self.fd = os.open(self.path, os.O_RDONLY | os.O_DIRECTORY)

    def close(self) -> None:
        if self.fd >= 0:
            os.close(self.fd)
            self.fd = -1

    def open(self, name: str) -> int:
        return os.open(os.path.join(self.path, name), os.O_RDONLY)

    def file_of(self, name: str) -> tuple[int, int] | None:
        """Which file has this name: None if there is none."""
        try:
            return _file(os.stat(os.path.join(self.path, name)))
        except FileNotFoundError:
            return None

    def read(self, name: str, size: int) -> bytes | None:
        """The first bytes of a file, or None if it is not there."""
        try:
            fd = self.open(name)
        except FileNotFoundError:
            return None
        try:
            return _read_at(fd, 0, size)
        finally:
            os.close(fd)

    def firsts(self) -> list[int]:
        """The numbers in the names of the segments, the oldest first."""
        numbers = (int(name[:20]) for name in os.listdir(self.path) if re.fullmatch(r"[0-9]{20}\.seg", name))
        return sorted(number for number in numbers if number <= _NUMBER_MOST)

    def head(self, first: int) -> native.SpoolHead | None:
        """The head of the segment that has this number in its name: None if it is gone, or has none of that number."""
        head = _parsed_head(self.read(_segment_name(first), _Size.HEAD))
        return head if head is not None and head.first == first else None

    def newest_head(self, firsts: list[int]) -> native.SpoolHead | None:
        """The head of the newest of these segments that has one."""
        return next((head for first in reversed(firsts) if (head := self.head(first)) is not None), None)

    def end(self) -> bytes | None:
        """The bytes of `end`, whole if that can be had."""
        for _ in range(_TRIES):
            data = self.read("end", _Size.END)
            if data is None or _parsed_end(data) is not None:
                break
        return data

    def floor(self, spool: bytes | None) -> int:
        """Up to which number records of this spool may be gone."""
        floor = _parsed_floor(self.read("floor", _Size.FLOOR))
        return floor.number if floor is not None and bytes(floor.spool) == spool else 0

    # Consumers. These go by the directory that was opened, also if its name is another's now: what is locked is there.

    def lock(self, name: str, seconds: float = 0.0) -> int:
        """Locks a file for as long as it is open. It is tried for so many seconds."""
        fd = os.open(name, os.O_RDWR | os.O_CREAT, 0o600, dir_fd=self.fd)
        until = time.monotonic() + seconds
        try:
            while not _is_locked(fd):
                if time.monotonic() >= until:
                    raise Locked(f"{os.path.join(self.path, name)} is locked by another process")
                time.sleep(0.02)
        except BaseException:
            os.close(fd)
            raise
        return fd

    def consumers(self) -> list[str]:
        return [name[:-3] for name in os.listdir(self.fd) if name.endswith(".at") and _NAME.fullmatch(name[:-3])]

    def begin(self) -> tuple[bytes, int]:
        """The id of the spool, and the number after which a new consumer begins: nothing is gone after that, and nothing may go."""
        firsts = self.firsts()
        if not firsts:
            raise SpoolError(f"{self.path} has no segments: a gateway has to begin its spool first")
        head = self.head(firsts[-1])
        if head is None:
            raise SpoolError(f"{self.path}: {_segment_name(firsts[-1])} has no head that is whole")
        spool, data = bytes(head.spool), self.read("floor", _Size.FLOOR)
        floor = _parsed_floor(data)
        if data is not None and floor is None:
            raise SpoolError(f"{self.path}: floor is not whole")
        if floor is not None and bytes(floor.spool) != spool:
            raise OtherSpool(f"{self.path}: floor is of the spool {bytes(floor.spool).hex()}, and not of {spool.hex()}")
        return spool, max(firsts[0] - 1, floor.number if floor is not None else 0)

    def position(self, consumer: str) -> bytes:
        """The bytes of a position, and one more if there are more."""
        try:
            fd = os.open(f"{consumer}.at", os.O_RDONLY, dir_fd=self.fd)
        except FileNotFoundError:
            raise NoConsumer(f"{self.path} has no consumer {consumer}") from None
        try:
            return _read_at(fd, 0, _Size.POSITION + 1)
        finally:
            os.close(fd)

    def write_position(self, consumer: str, spool: bytes, number: int) -> None:
        """Makes this the position of a consumer, on the disk."""
        room = ctypes.create_string_buffer(_Size.POSITION)
        position = native.SpoolPosition((ctypes.c_uint8 * 16)(*spool), number)
        _lib.wule_spool_write_position(_address(position), _address(room), len(room))
        made = f"{consumer}.at.tmp"
        try:
            os.unlink(made, dir_fd=self.fd)  # a sync of a file that failed once says nothing when it is tried again
        except FileNotFoundError:
            pass
        fd = os.open(made, os.O_WRONLY | os.O_CREAT | os.O_EXCL, 0o600, dir_fd=self.fd)
        try:
            written = os.write(fd, room.raw)
            if written != len(room):
                raise OSError(f"{written} bytes of {made} were written, and not {len(room)}")
            os.fsync(fd)
        finally:
            os.close(fd)
        os.rename(made, f"{consumer}.at", src_dir_fd=self.fd, dst_dir_fd=self.fd)
        os.fsync(self.fd)


class _Segment:
    """A segment that is open, and how far it was read: where the next batch begins, its number, and who sends on each link."""

    def __init__(self, fd: int, head: native.SpoolHead) -> None:
        self.fd, self.head, self.file = fd, head, _file(os.fstat(fd))
        self.first, self.mark, self.life = head.first, head.sum, head.life
        self.place, self.number = int(_Size.HEAD), head.first
        self.senders: dict[int, Sender] = {}
        self.batch = native.SpoolBatch()
        self._entry = native.SpoolEntry()
        self._told = memoryview(self._entry).cast("B")

    def next_batch(self, counted: int) -> bytes | None:
        """The next batch with its head, or None if no whole one is there among the bytes that count."""
        front = _read_at(self.fd, self.place, _Size.BATCH_HEAD)
        size = _lib.wule_spool_batch_size(native.address_of(front), len(front))
        if size == 0 or self.place + size > counted:
            return None
        data = _read_at(self.fd, self.place, size)
        if _lib.wule_spool_read_batch(_address(self.head), self.number, native.address_of(data), len(data), _address(self.batch)):
            return None
        return data

    def entries(self, data: bytes) -> list[tuple[int, tuple[int, ...]]] | None:
        """Where the entries of a batch begin, and what is told of each; None if they are not as many records as it says."""
        found, records, at, end = [], 0, int(_Size.BATCH_HEAD), len(data)
        base, into = native.address_of(data), _address(self._entry)
        while at < end:
            if _lib.wule_spool_read_entry(base + at, end - at, into):
                return None
            fields = _ENTRY.unpack(self._told)
            found.append((at, fields))
            records += fields[1] == _Kind.RECORD
            at += fields[0]
        return found if records == self.batch.count else None

    def pass_over(self, place: int, number: int) -> None:
        """Leaves out what stands before this place and this number."""
        self.place, self.number = place, number


class _Broken(NamedTuple):
    """Where a segment breaks off, and the first number that can't be read."""

    place: int
    number: int


# The reader ------------------------------------------------------------------------------------------------------------------


class Spool:
    """The records of the spool in a directory, in order, each once, as a gateway writes them::

        with Spool("/var/lib/amqp/spool", consumer="billing") as spool:
            for record in spool:
                store(record.spool, record.number, record.address, record.message)
                record.ack()

    As a `consumer` it begins after what that has acknowledged, and no other process reads as it meanwhile. `after` begins after a number,
    and nothing can be acknowledged. Without either it begins with the first record that is not gone. At the end it looks for more each
    `poll` seconds; with ``follow=False`` it ends there.

    A record is given once its sender may have heard that it is accepted, and again after a start here that finds it not acknowledged.
    Store the last number with what came of the records, in one transaction, and skip those up to it: then each counts once.

    Iterating raises Gap and SpoolDamaged in the place of records that can't be had; the next call goes on after these. OtherSpool is
    raised at each call. An OSError says that the system refused to read a file: the next call tries it again. One thread at a time uses
    it. In memory it has one batch, which is at most 1 MiB or the longest message.

    Raises NoConsumer, Locked and OtherSpool. If the position of the consumer can't be read it warns, and begins with the first record that
    is not gone.
    """

    def __init__(
        self,
        directory: str | os.PathLike[str],
        *,
        consumer: str | None = None,
        after: int | None = None,
        poll: float = 0.1,
        follow: bool = True,
    ) -> None:
        self._lock = -1
        self._segment: _Segment | None = None
        self._directory: _Directory | None = None
        if consumer is not None and after is not None:
            raise ValueError("a consumer begins after its position: there is no `after` beside it")
        if not poll > 0:
            raise ValueError(f"poll is above 0, not {poll}")
        self._consumer = None if consumer is None else _name(consumer)
        self._due = None if after is None else _word(after, "after", _NUMBER_MOST) + 1
        self._poll, self._follow = poll, follow
        self._id: bytes | None = None
        self._position, self._is_unread = 0, False
        self._next = 0  # the number after the last that is known to be published
        self._seen: bytes | None = None  # the bytes of `end` up to which all was given
        self._directory = _Directory(directory)
        self._items = self._read()
        self._back: deque[SpoolRecord] = deque()
        self._error: SpoolError | None = None
        try:
            self._begin()
        except BaseException:
            self.close()
            raise

    def _begin(self) -> None:
        """Takes the lock of the consumer, and begins after its position."""
        if self._consumer is not None:
            self._files.position(self._consumer)
            self._lock = self._files.lock(f"{self._consumer}.at.lock")
            position = _parsed_position(self._files.position(self._consumer))
            if position is None:
                self._is_unread = True
                what = f"{self._files.path}: the position of {self._consumer} can't be read, and counts as 0"
                warnings.warn(what, RuntimeWarning, stacklevel=3)
            else:
                self._is_of(position.spool)
                self._position = position.number
                self._due = position.number + 1
        self._take_end(self._files.end())

    @staticmethod
    def add(directory: str | os.PathLike[str], consumer: str) -> int:
        """Adds a consumer, and returns the number after which it begins: its first record is the first that is not gone. From then on the
        gateway keeps what it has not acknowledged. Raises SpoolError if there is one of this name, if there are 64, or if the directory has
        no spool; Locked; OtherSpool."""
        name, files = _name(consumer), _Directory(directory)
        lock = -1
        try:
            lock = files.lock("consumers.lock", _LOCK_SECONDS)
            names = files.consumers()
            if name in names:
                raise SpoolError(f"{files.path} has a consumer {name}")
            if len(names) >= _MOST_CONSUMERS:
                raise SpoolError(f"{files.path} has {_MOST_CONSUMERS} consumers")
            spool, number = files.begin()
            files.write_position(name, spool, number)
            return number
        finally:
            if lock >= 0:
                os.close(lock)
            files.close()

    @property
    def _files(self) -> _Directory:
        if self._directory is None:
            raise ValueError("the spool is closed")
        return self._directory

    @property
    def id(self) -> str | None:
        """The id of the spool, in hex, once something of it was read."""
        return None if self._id is None else self._id.hex()

    @property
    def position(self) -> int:
        """Up to which number the consumer has acknowledged; 0 if it reads as none."""
        return self._position

    def close(self) -> None:
        """Closes its files, and gives the consumer's lock back."""
        self._leave()
        if self._lock >= 0:
            os.close(self._lock)
            self._lock = -1
        if self._directory is not None:
            self._directory.close()
            self._directory = None

    def __enter__(self) -> Spool:
        return self

    def __exit__(self, *exc: object) -> None:
        self.close()

    def __del__(self) -> None:
        if getattr(self, "_directory", None) is not None:
            self.close()

    def __repr__(self) -> str:
        return f"Spool({self._directory.path!r})" if self._directory is not None else "Spool(closed)"

    # Records -------------------------------------------------------------------------------------------------------------

    def __iter__(self) -> Iterator[SpoolRecord]:
        return self

    def __next__(self) -> SpoolRecord:
        while True:
            record = self._step()
            if record is not None:
                return record
            time.sleep(self._poll)

    def take(self, count: int = 1000, size: int = 1 << 20) -> list[SpoolRecord]:
        """The next records: those that are there, at most `count`, and none after those whose messages have `size` bytes together. It waits
        for the first. The list is empty only at the end, which is never come to if it follows. Raises what iterating does."""
        taken: list[SpoolRecord] = []
        bytes_taken = 0
        try:
            while len(taken) < count and bytes_taken < size:
                record = self._step()
                if record is not None:
                    taken.append(record)
                    bytes_taken += len(record.message)
                elif taken:
                    break
                else:
                    time.sleep(self._poll)
        except StopIteration:
            pass
        except SpoolError as error:
            if not taken:
                raise
            self._error = error  # of the next call
        except BaseException:
            self._back.extendleft(reversed(taken))
            raise
        return taken

    def _step(self) -> SpoolRecord | None:
        """The next record, or None if there is none now."""
        if self._back:
            return self._back.popleft()
        if self._error is not None:
            error, self._error = self._error, None
            raise error
        try:
            return next(self._items)
        except StopIteration:
            raise
        except BaseException:
            self._items = self._read()  # goes on where this one was
            raise

    def ack(self, number: int) -> None:
        """Acknowledges all records up to this number, on the disk: the gateway may remove them. It takes two syncs, so acknowledge many at
        once. If it is the position nothing is written.

        Raises ValueError if it is below the position or was not published, or if this is no consumer; NoConsumer if that was removed. After
        an OSError the position is as it was, or this number."""
        if self._consumer is None:
            raise ValueError("only a consumer acknowledges")
        number = _word(number, "number", _NUMBER_MOST)
        if number >= self._next:
            self._take_end(self._files.end())
        if number >= self._next:
            raise ValueError(f"{number} was not published: the next record has the number {max(self._next, 1)}")
        if number < self._position:
            raise ValueError(f"{self._consumer} has acknowledged up to {self._position}, and {number} is below that")
        if number == self._position and not self._is_unread:
            return
        self._files.position(self._consumer)
        assert self._id is not None
        self._files.write_position(self._consumer, self._id, number)
        self._position, self._is_unread = number, False

    # Going through the files ---------------------------------------------------------------------------------------------

    def _is_of(self, spool: Any) -> None:
        """Takes the id of a spool, which has to be the same as before."""
        spool = bytes(spool)
        if self._id is None:
            self._id = spool
        elif self._id != spool:
            raise OtherSpool(f"{self._files.path} has the spool {spool.hex()}, and not {self._id.hex()}")

    def _take_end(self, data: bytes | None) -> native.SpoolEnd | None:
        """What the bytes of `end` say, if they are whole."""
        end = _parsed_end(data)
        if end is not None:
            self._is_of(end.spool)
            self._next = max(self._next, end.next)
        return end

    def _read(self) -> Iterator[SpoolRecord | None]:
        """The records from the one on that is due, and None where no more are published."""
        while True:
            data = self._files.end()
            if data is None or data != self._seen:
                has_moved = yield from self._catch_up(data)
                if has_moved:
                    continue
                self._seen = data
            if not self._follow:
                return
            yield None

    def _catch_up(self, data: bytes | None) -> Generator[SpoolRecord, None, bool]:
        """The records up to this end. Returns whether another end was published before all of them were read."""
        end, segment = self._take_end(data), self._segment
        if end is None or segment is None or (segment.first, segment.mark) != (end.first, end.mark):
            firsts = self._files.firsts()
            if not firsts:
                return False
            yield from self._read_older(firsts, end)
        if end is None:
            return False
        return (yield from self._read_newest(data, end))

    def _read_older(self, firsts: list[int], end: native.SpoolEnd | None) -> Iterator[SpoolRecord]:
        """The records of the segments, of which these have names, that have another one after them."""
        head = self._files.newest_head(firsts)
        if head is not None:
            self._is_of(head.spool)
        floor = self._files.floor(self._id)
        if self._due is None:
            self._due = floor + 1
        self._pass_to(floor + 1)
        if end is not None:
            firsts = [first for first in firsts if first < end.first] + [end.first]
        for first, newer in zip(firsts, firsts[1:]):
            if newer > self._due:
                self._pass_to(first)
                yield from self._read_counted(first, newer)
        self._pass_to(firsts[-1])

    def _read_counted(self, first: int, newer: int) -> Iterator[SpoolRecord]:
        """The records of a segment, as far as the head of the one after it counts."""
        head = self._files.head(newer)
        is_next = head is not None and bytes(head.spool) == self._id and head.before == first
        segment = self._open(first)
        broken: _Broken | None = _Broken(0, first)
        if segment is not None:
            broken = yield from self._tell(segment, head.counted if is_next else None, newer)
        if broken is not None and self._files.floor(self._id) + 1 < newer:
            self._break_off(first, broken, newer)

    def _read_newest(self, data: bytes | None, end: native.SpoolEnd) -> Generator[SpoolRecord, None, bool]:
        """The records of the newest segment up to its end. Returns as `_catch_up`."""
        while self._due < end.next:
            segment = self._segment
            if segment is None or (segment.first, segment.mark) != (end.first, end.mark):
                segment = self._open(end.first)
            broken: _Broken | None = _Broken(0, end.first)
            if segment is not None:
                if segment.mark != end.mark:
                    return False  # the end is of a file that was there before: what this one has is not published
                broken = yield from self._tell(segment, end.place, end.next)
            if broken is None:
                return False
            if self._files.end() != data:
                return True
            if self._files.floor(self._id) + 1 >= end.next:
                return False
            if segment is not None and self._is_replaced(segment):
                self._leave()
            elif self._files.file_of(_segment_name(end.first)) is None:
                self._pass_to(end.next)
            else:
                if segment is not None:
                    segment.pass_over(end.place, end.next)
                self._break_off(end.first, broken, end.next)
        return False

    def _tell(self, segment: _Segment, counted: int | None, next: int) -> Generator[SpoolRecord, None, _Broken | None]:
        """The records of a segment that are due, up to where its bytes count and the next number; without a count its whole batches do.
        Returns where it breaks off."""
        most = os.fstat(segment.fd).st_size if counted is None else counted
        while segment.place < most and (counted is not None or segment.number < next):
            data = segment.next_batch(most)
            entries = None if data is None else segment.entries(data)
            if data is None or entries is None:
                break
            broken = yield from self._tell_batch(segment, data, entries)
            if broken is not None:
                return broken
            segment.pass_over(segment.place + len(data), segment.number + segment.batch.count)
        if counted is not None and (segment.place < most or segment.number < next):
            return _Broken(segment.place, segment.number)
        return None

    def _tell_batch(
        self, segment: _Segment, data: bytes, entries: list[tuple[int, tuple[int, ...]]]
    ) -> Generator[SpoolRecord, None, _Broken | None]:
        """The records of a batch that are due. Returns where it breaks off: at a record whose sender was not introduced."""
        number, arrived, spool = segment.number, segment.batch.arrived, bytes(segment.head.spool).hex()
        for at, fields in entries:
            link = fields[2]
            if fields[1] == _Kind.INTRODUCTION:
                segment.senders[link] = _sender(data[at : at + fields[0]], fields)
                continue
            if number >= self._due:
                sender = segment.senders.get(link)
                if sender is None:
                    return _Broken(segment.place, number)
                tag, record = at + fields[16], at + fields[18]
                channel, handle, id, format, size = _RECORD.unpack_from(data, record)
                message = data[record + _Size.RECORD_HEAD : record + _Size.RECORD_HEAD + size]
                yield SpoolRecord(
                    spool, number, arrived, segment.life, *sender, data[tag : tag + fields[17]], channel, handle, id, format, message, self
                )
                self._due = number + 1
            number += 1
        return None

    def _open(self, first: int) -> _Segment | None:
        """The segment that has this number in its name, as far as it was read. None if it is gone, or has no head of this spool."""
        segment = self._segment
        if segment is not None and segment.first == first and not self._is_replaced(segment):
            return segment
        self._leave()
        try:
            fd = self._files.open(_segment_name(first))
        except FileNotFoundError:
            return None
        head = _parsed_head(_read_at(fd, 0, _Size.HEAD))
        if head is None or head.first != first or bytes(head.spool) != self._id:
            os.close(fd)
            return None
        self._segment = _Segment(fd, head)
        return self._segment

    def _leave(self) -> None:
        """Closes the segment that is open."""
        if self._segment is not None:
            segment, self._segment = self._segment, None
            os.close(segment.fd)

    def _is_replaced(self, segment: _Segment) -> bool:
        """Whether another file has its name now: a start of the gateway writes the newest segment once more, and cuts the one that was
        there. What counts of it is the same then, and its head too."""
        return self._files.file_of(_segment_name(segment.first)) not in (None, segment.file)

    def _pass_to(self, number: int) -> None:
        """Makes a number due, if a lower one is: those before it are gone."""
        if self._due < number:
            gap = Gap(self._due, number - 1)
            self._due = number
            raise gap

    def _break_off(self, first: int, broken: _Broken, next: int) -> None:
        """Passes over what can't be read of a segment, up to the number after it."""
        damaged = SpoolDamaged(_segment_name(first), broken.place, max(broken.number, self._due), next - 1)
        self._due = next
        raise damaged


def _name(consumer: str) -> str:
    if not isinstance(consumer, str):
        raise TypeError(f"consumer is a str, not {type(consumer).__name__}")
    if not _NAME.fullmatch(consumer):
        raise ValueError(f"the name of a consumer has 1 to 64 of a-z, 0-9, - and _, the first a letter or a digit: not {consumer!r}")
    return consumer
