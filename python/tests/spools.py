"""The reader of spools: what a model's rows say of the same files; and how it follows, acknowledges and is refused, over files that are
written here, with a SipHash of their own.

    spools.py ROWS
"""

from __future__ import annotations

import base64
import errno
import fcntl
import json
import os
import re
import sys
import tempfile
import unittest
import warnings
from collections.abc import Iterator
from pathlib import Path
from typing import Any
from unittest import mock

from wuleshomia import Gap, Locked, NoConsumer, OtherSpool, Spool, SpoolDamaged, SpoolError, SpoolRecord, TargetKind

ROWS = ""
MASK = (1 << 64) - 1

# The blocks of rows in which the end of the newest segment is not published, with its number. What is printed of it there is not given
# here, where only what is published is read.
UNPUBLISHED = {
    "Without an end whole batches are read": 8,
    "Without an end a torn batch is left out": 8,
    "A torn end is none": 8,
    "An end of a file that was there before counts nothing": 8,
    "A bit of the newest head, and no end": 8,
    "No head can be read": 6,
}
OTHER = "An end of another spool is none"


# Rows ------------------------------------------------------------------------------------------------------------------------


class Block:
    """A list of rows: the files of a spool, and what is printed of it after which number."""

    def __init__(self, title: str) -> None:
        self.title = title
        self.files: dict[str, bytes] = {}
        self.printed: list[tuple[int | None, str]] = []


def blocks(text: str) -> Iterator[Block]:
    values: dict[str, str] = {"-": ""}
    block = Block("")
    for line in text.splitlines():
        if line.startswith("@"):
            name, value = line.split(" = ")
            values[name] = value
        elif line.startswith("== "):
            yield block
            block = Block(line[3:])
        elif line.startswith("file "):
            name, value = line[5:].removesuffix(" | ()").rsplit(" ", 1)
            block.files[name] = bytes.fromhex(values[value])
        elif call := re.match(r"(?:json|text)(?: after=(\d+))? \| ", line):
            block.printed.append((int(call[1]) if call[1] else None, line[call.end() :]))
    yield block


class Told:
    """What is told of a spool: its records, the numbers that are missing, as the ranges that they make, and the segments that are
    damaged."""

    def __init__(self) -> None:
        self.records: list[Any] = []
        self.missing: list[tuple[int, int]] = []
        self.faults: list[str] = []

    def miss(self, first: int, last: int) -> None:
        if self.missing and self.missing[-1][1] + 1 >= first:
            self.missing[-1] = (self.missing[-1][0], max(last, self.missing[-1][1]))
        else:
            self.missing.append((first, last))

    def below(self, number: int) -> Told:
        """What is told of the segments before the one of this number."""
        told = Told()
        told.records = [record for record in self.records if record["number"] < number]
        told.missing = [(first, last) for first, last in self.missing if first < number]
        told.faults = [fault for fault in self.faults if int(fault.split()[1][:20]) < number]
        return told


def printed(answer: str) -> Told:
    told, decoder = Told(), json.JSONDecoder()
    while answer:
        if answer.startswith("{"):
            line, at = decoder.raw_decode(answer)
            answer = answer[at + 3 :]
            if "gap" in line:
                told.miss(int(line["gap"]["from"]), int(line["gap"]["to"]))
            else:
                for name in ("number", "time", "life", "connection"):
                    line[name] = int(line[name])
                told.records.append(line)
            continue
        line, _, answer = answer.partition(" / ")
        if record := re.match(r"number=(\d+) time=(\d+) life=(\d+) connection=(\d+) ", line):
            told.records.append(dict(zip(("number", "time", "life", "connection"), map(int, record.groups()))))
        elif gap := re.fullmatch(r"gap (\d+) to (\d+)", line):
            told.miss(int(gap[1]), int(gap[2]))
        elif line.startswith("fault: ") and line != "fault: NoSegments":
            told.faults.append(line)
    return told


def given(spool: Spool) -> Told:
    told = Told()
    while True:
        try:
            told.records.append(next(spool))
        except Gap as gap:
            told.miss(gap.first, gap.last)
        except SpoolDamaged as damaged:
            told.miss(damaged.first, damaged.last)
            told.faults.append(f"fault: {damaged.segment} {damaged.place} Damaged, {damaged.first} to {damaged.last} are missing")
        except StopIteration:
            return told


def text_in_json(value: str | None) -> Any:
    """A text as the rows have it: one that is no UTF-8 is a binary."""
    try:
        return value if value is None else value.encode().decode()
    except UnicodeEncodeError:
        return {"binary": base64.b64encode(value.encode(errors="surrogateescape")).decode()}


def address_in_json(record: SpoolRecord) -> Any:
    if record.target_kind is TargetKind.OTHER:
        return "target"
    return {"dynamic": True} if record.target_kind is TargetKind.DYNAMIC else text_in_json(record.address)


class Rows(unittest.TestCase):
    def test_rows(self) -> None:
        count = 0
        for block in blocks(ROWS):
            for after, answer in block.printed:
                with self.subTest(block.title, after=after), tempfile.TemporaryDirectory() as folder:
                    for name, data in block.files.items():
                        Path(folder, name).write_bytes(data)
                    wanted, count = printed(answer), count + 1
                    if block.title == OTHER:
                        self.refuse_other(folder, after)
                        continue
                    if block.title in UNPUBLISHED:
                        wanted = wanted.below(UNPUBLISHED[block.title])
                    with Spool(folder, after=after, follow=False) as spool:
                        told = given(spool)
                    self.compare(wanted, told)
        self.assertGreater(count, 50)

    def refuse_other(self, folder: str, after: int | None) -> None:
        with Spool(folder, after=after, follow=False) as spool:
            with self.assertRaises(OtherSpool):
                next(spool)

    def compare(self, wanted: Told, told: Told) -> None:
        self.assertEqual([record["number"] for record in wanted.records], [record.number for record in told.records])
        self.assertEqual((wanted.missing, wanted.faults), (told.missing, told.faults))
        for line, record in zip(wanted.records, told.records):
            self.assertEqual(
                (line["time"], line["life"], line["connection"]),
                (record.time, record.life, record.connection),
            )
            if "spool" in line:
                self.compare_json(line, record)

    def compare_json(self, line: dict[str, Any], record: SpoolRecord) -> None:
        address = "target" if isinstance(line["address"], dict) and "target" in line["address"] else line["address"]
        names = ("spool", "peer", "container", "user", "link", "tag", "channel", "handle", "id", "format", "size")
        values = (
            record.spool,
            *map(text_in_json, (record.peer, record.container, record.user, record.link)),
            record.tag.hex(),
            *(record.channel, record.handle, record.id, record.format, len(record.message)),
        )
        self.assertEqual((*(line[name] for name in names), address), (*values, address_in_json(record)))
        body = line.get("data")
        if isinstance(body, str) and line["size"] == 5 + len(body.encode()):
            self.assertEqual(record.message, b"\x00Su\xa0" + bytes([len(body.encode())]) + body.encode())


# A model of the format -------------------------------------------------------------------------------------------------------


def rotated(word: int, by: int) -> int:
    return (word << by | word >> 64 - by) & MASK


def sip(data: bytes) -> int:
    """SipHash-1-3 with the key 0."""
    v = [0x736F6D6570736575, 0x646F72616E646F6D, 0x6C7967656E657261, 0x7465646279746573]

    def turn() -> None:
        v[0] = v[0] + v[1] & MASK
        v[2] = v[2] + v[3] & MASK
        v[1], v[3] = rotated(v[1], 13) ^ v[0], rotated(v[3], 16) ^ v[2]
        v[0] = rotated(v[0], 32) + v[3] & MASK
        v[2] = v[2] + v[1] & MASK
        v[1], v[3] = rotated(v[1], 17) ^ v[2], rotated(v[3], 21) ^ v[0]
        v[2] = rotated(v[2], 32)

    last = data[len(data) & ~7 :].ljust(7, b"\0") + bytes([len(data) & 255])
    for at in range(0, len(data) & ~7, 8):
        word = int.from_bytes(data[at : at + 8], "little")
        v[3] ^= word
        turn()
        v[0] ^= word
    word = int.from_bytes(last, "little")
    v[3] ^= word
    turn()
    v[0] ^= word
    v[2] ^= 0xFF
    for _ in range(3):
        turn()
    return v[0] ^ v[1] ^ v[2] ^ v[3]


def number(value: int, size: int = 8) -> bytes:
    return value.to_bytes(size, "big")


def summed(front: bytes, secret: bytes, rest: bytes = b"") -> bytes:
    return front + number(sip(secret + front + rest)) + rest


def short(data: bytes) -> bytes:
    return bytes([len(data)]) + data


def introduction(link: int, connection: int = 1, name: bytes = b"link", target: bytes = b"orders", kind: int = 0) -> bytes:
    parts = short(b"127.0.0.1:1") + short(b"shop") + short(name) + short(b"")
    return b"\1" + number(link, 4) + number(connection) + parts + bytes([kind]) + number(len(target), 2) + target


def record(link: int, message: bytes) -> bytes:
    return b"\2" + number(link, 4) + short(b"t") + number(0, 2) + number(7, 4) * 2 + number(0, 4) + number(len(message), 4) + message


ID, SECRET = bytes(range(16)), bytes(range(100, 116))


class Model:
    """A directory as a gateway writes it."""

    def __init__(self, folder: str, spool: bytes = ID) -> None:
        self.folder, self.spool = Path(folder), spool
        self.next, self.first, self.before, self.counted, self.life = 1, 0, 0, 0, 1

    def path(self, first: int) -> Path:
        return self.folder / f"{first:020}.seg"

    def head(self, secret: bytes) -> bytes:
        numbers = b"".join(map(number, (self.first, self.before, self.counted, self.life)))
        return summed(b"amqpsp1\n" + self.spool + secret + numbers, secret)

    def batch(self, messages: list[bytes], introduced: bytes = b"", link: int = 1, arrived: int = 1000) -> bytes:
        body = introduced + b"".join(record(link, message) for message in messages)
        front = number(len(body), 4) + number(len(messages), 4) + number(self.next) + number(arrived)
        self.next += len(messages)
        return summed(front, self.secret, body)

    def segment(self, *messages: bytes, secret: bytes = SECRET) -> None:
        """A new one, with a batch if there are messages."""
        if self.first:
            self.before, self.counted = self.first, self.path(self.first).stat().st_size
        self.first, self.secret = self.next, secret
        data = self.head(secret) + (self.batch(list(messages), introduction(1)) if messages else b"")
        self.path(self.first).write_bytes(data)

    def append(self, *messages: bytes, **words: Any) -> None:
        with open(self.path(self.first), "ab") as file:
            file.write(self.batch(list(messages), **words))

    def start(self, *messages: bytes, cuts: bool = True) -> None:
        """A start: what is whole of the newest is written once more, with the same head, and the file that was there is cut. A batch that
        was not told may be in it too. The next segment is of the next life."""
        path = self.path(self.first)
        data = path.read_bytes() + (self.batch(list(messages)) if messages else b"")
        (self.folder / "next.tmp").write_bytes(data)
        with open(path, "r+b") as file:
            os.rename(self.folder / "next.tmp", path)
            if cuts:
                file.truncate(0)
        self.life += 1

    def write_anew(self, secret: bytes) -> None:
        """The newest as another one of that number: it was lost by a loss of power before it was told."""
        self.path(self.first).unlink()
        self.next, self.secret = self.first, secret
        self.path(self.first).write_bytes(self.head(secret) + self.batch([b"other"], introduction(1)))

    def end(self) -> bytes:
        data = self.path(self.first).read_bytes()
        return summed(self.spool + number(self.first) + data[72:80] + number(len(data)) + number(self.next), self.spool)

    def publish(self) -> None:
        (self.folder / "end").write_bytes(self.end())

    def raise_floor(self, last: int) -> None:
        (self.folder / "floor").write_bytes(summed(self.spool + number(last) + number(0), self.spool))

    def remove(self, first: int) -> None:
        with open(self.path(first), "r+b") as file:
            file.truncate(0)
        self.path(first).unlink()

    def position(self, last: int) -> bytes:
        front = f"{self.spool.hex()} {last:020}".encode()
        return front + b" " + f"{sip(self.spool + front):016x}".encode() + b"\n"

    def add(self, name: str, last: int = 0) -> None:
        (self.folder / f"{name}.at").write_bytes(self.position(last))


class WithModel(unittest.TestCase):
    def setUp(self) -> None:
        folder = tempfile.TemporaryDirectory()
        self.addCleanup(folder.cleanup)
        self.folder = folder.name
        self.model = Model(self.folder)

    def reader(self, **words: Any) -> Spool:
        spool = Spool(self.folder, **words)
        self.addCleanup(spool.close)
        return spool

    def now(self, spool: Spool) -> list[tuple[int, bytes]]:
        """All that it gives now."""
        found = []
        while (one := spool._step()) is not None:
            found.append((one.number, one.message))
        return found


class Follows(WithModel):
    def test_the_end_moves_within_a_segment(self) -> None:
        spool = self.reader()
        self.assertEqual(self.now(spool), [])
        self.model.segment(b"one", b"two")
        self.assertEqual(self.now(spool), [])  # it is not published
        self.model.publish()
        self.assertEqual(self.now(spool), [(1, b"one"), (2, b"two")])
        self.model.append(b"three")
        self.assertEqual(self.now(spool), [])
        self.model.publish()
        self.model.append(b"four")
        self.assertEqual(self.now(spool), [(3, b"three")])
        whole = self.model.end()
        (Path(self.folder) / "end").write_bytes(whole[:30] + bytes(26))
        self.assertEqual(self.now(spool), [])
        self.model.publish()
        self.assertEqual(self.now(spool), [(4, b"four")])

    def test_a_poll_that_finds_the_same_end_reads_it_alone(self) -> None:
        self.model.segment(b"one")
        self.model.publish()
        spool = self.reader()
        self.assertEqual(len(self.now(spool)), 1)
        opened, real = [], os.open
        with mock.patch("os.open", lambda path, *words, **more: opened.append(os.path.basename(path)) or real(path, *words, **more)):
            with mock.patch("os.listdir", side_effect=AssertionError):
                self.assertEqual(self.now(spool), [])
                self.assertEqual(opened, ["end"])
                self.model.append(b"two")
                self.model.publish()
                opened.clear()
                self.assertEqual(self.now(spool), [(2, b"two")])
        self.assertEqual(set(opened), {"end"})

    def test_new_segments(self) -> None:
        self.model.segment(b"one")
        self.model.publish()
        spool = self.reader()
        self.assertEqual(self.now(spool), [(1, b"one")])
        self.model.append(b"two")
        self.model.segment(b"three")
        self.assertEqual(self.now(spool), [])
        self.model.publish()
        self.assertEqual(self.now(spool), [(2, b"two"), (3, b"three")])
        self.model.segment(b"four", b"five")
        self.model.segment(b"six")
        self.model.publish()
        self.assertEqual(self.now(spool), [(4, b"four"), (5, b"five"), (6, b"six")])
        self.model.segment()
        self.model.publish()
        self.assertEqual(self.now(spool), [])

    def test_what_does_not_count_of_an_older_segment_is_left_out(self) -> None:
        self.model.segment(b"one")
        self.model.publish()
        spool = self.reader()
        self.assertEqual(self.now(spool), [(1, b"one")])
        counted, first = self.model.path(1).stat().st_size, self.model.first
        self.model.append(b"never told")
        self.model.next = 2
        self.model.segment(b"two")
        head = self.model.first, self.model.before, self.model.counted
        self.model.counted = counted
        body = self.model.path(2).read_bytes()[80:]
        self.model.path(2).write_bytes(self.model.head(SECRET) + body)
        self.model.publish()
        self.assertEqual((head[0], head[1], first), (2, 1, 1))
        self.assertEqual(self.now(spool), [(2, b"two")])

    def test_a_start_replaces_the_newest(self) -> None:
        for cuts in (True, False):
            with self.subTest(cuts=cuts):
                self.setUp()
                self.model.segment(b"one", b"two")
                self.model.publish()
                spool = self.reader()
                self.assertEqual(self.now(spool), [(1, b"one"), (2, b"two")])
                self.model.start(b"three", cuts=cuts)
                self.assertEqual(self.now(spool), [])
                self.model.publish()
                self.assertEqual(self.now(spool), [(3, b"three")])
                self.model.segment(b"four")
                self.model.publish()
                self.assertEqual([(r.number, r.message, r.life) for r in spool.take()], [(4, b"four", 2)])

    def test_starts_while_it_reads(self) -> None:
        """The file that it has open is cut before it has read all that was published of it: also where the end stays as it is."""
        for what in ("the same end", "another end", "a new segment", "two starts"):
            with self.subTest(what):
                self.setUp()
                self.model.segment(b"one")
                self.model.append(b"two")
                self.model.publish()
                spool, wanted = self.reader(), [(2, b"two")]
                self.assertEqual(spool._step().number, 1)
                self.model.start(*([] if what == "the same end" else [b"three"]))
                if what == "two starts":
                    self.model.start()
                if what == "a new segment":
                    self.model.segment(b"four", secret=bytes(16))
                    wanted.append((4, b"four"))
                if what != "the same end":
                    wanted.insert(1, (3, b"three"))
                    self.model.publish()
                self.assertEqual(self.now(spool), wanted)

    def test_a_segment_that_was_lost_before_it_was_told(self) -> None:
        self.model.segment(b"one")
        self.model.publish()
        spool = self.reader()
        self.assertEqual(self.now(spool), [(1, b"one")])
        self.model.segment(b"two")
        self.assertEqual(self.now(spool), [])
        self.model.write_anew(bytes(16))
        self.assertEqual(self.now(spool), [])
        self.model.publish()
        self.assertEqual(self.now(spool), [(2, b"other")])

    def test_segments_that_went(self) -> None:
        self.model.segment(b"one")
        self.model.publish()
        spool = self.reader()
        self.assertEqual(self.now(spool), [(1, b"one")])
        self.model.append(b"two")
        self.model.segment(b"three", b"four")
        self.model.segment(b"five")
        self.model.publish()
        self.model.raise_floor(4)
        self.model.remove(1)
        self.model.remove(3)
        with self.assertRaises(Gap) as gap:
            self.now(spool)
        self.assertEqual((gap.exception.first, gap.exception.last), (2, 4))
        self.assertEqual(self.now(spool), [(5, b"five")])
        self.model.segment(b"six")
        self.model.publish()
        self.model.raise_floor(5)
        self.model.remove(5)
        self.assertEqual(self.now(spool), [(6, b"six")])

    def test_a_segment_goes_while_it_is_read(self) -> None:
        self.model.segment(b"one")
        self.model.append(b"two")
        self.model.segment(b"three")
        self.model.publish()
        spool = self.reader()
        self.assertEqual(spool._step().number, 1)
        self.model.raise_floor(2)
        self.model.remove(1)
        with self.assertRaises(Gap) as gap:
            self.now(spool)
        self.assertEqual((gap.exception.first, gap.exception.last), (2, 2))
        self.assertEqual(self.now(spool), [(3, b"three")])

    def test_a_segment_goes_before_its_end_is_published(self) -> None:
        self.model.segment(b"one")
        self.model.publish()
        spool = self.reader()
        self.assertEqual(self.now(spool), [(1, b"one")])
        self.model.append(b"two")
        self.model.publish()
        self.model.segment(b"three")
        self.model.raise_floor(2)
        self.model.remove(1)
        self.assertEqual(self.now(spool), [])
        self.model.publish()
        with self.assertRaises(Gap) as gap:
            self.now(spool)
        self.assertEqual((gap.exception.first, gap.exception.last), (2, 2))
        self.assertEqual(self.now(spool), [(3, b"three")])

    def test_damage(self) -> None:
        self.model.segment(b"one")
        self.model.append(b"two")
        self.model.append(b"three")
        self.model.publish()
        data = bytearray(self.model.path(1).read_bytes())
        at = data.index(b"two")
        data[at] ^= 1
        self.model.path(1).write_bytes(data)
        spool = self.reader()
        self.assertEqual(spool._step().number, 1)
        with self.assertRaises(SpoolDamaged) as damaged:
            self.now(spool)
        error = damaged.exception
        self.assertEqual((error.segment, error.first, error.last), ("00000000000000000001.seg", 2, 3))
        self.assertEqual(data[error.place : error.place + 4], number(len(record(1, b"two")), 4))
        self.assertEqual(self.now(spool), [])
        self.model.append(b"four")
        self.model.publish()
        self.assertEqual(self.now(spool), [(4, b"four")])
        self.model.segment(b"five")
        self.model.publish()
        self.assertEqual(self.now(spool), [(5, b"five")])
        again = self.reader()
        self.assertEqual(again._step().number, 1)
        with self.assertRaises(SpoolDamaged) as damaged:
            self.now(again)
        self.assertEqual((damaged.exception.first, damaged.exception.last), (2, 4))
        self.assertEqual(self.now(again), [(5, b"five")])

    def test_a_record_of_a_link_that_nobody_introduced(self) -> None:
        self.model.segment(b"one")
        self.model.append(b"two", link=2)
        self.model.append(b"three", introduced=introduction(2, name=b"second"), link=2)
        self.model.publish()
        spool = self.reader()
        self.assertEqual(spool._step().link, "link")
        with self.assertRaises(SpoolDamaged) as damaged:
            self.now(spool)
        self.assertEqual((damaged.exception.first, damaged.exception.last), (2, 3))

    def test_a_link_is_introduced_in_each_segment(self) -> None:
        self.model.segment(b"one")
        self.model.segment()
        self.model.append(b"two")
        self.model.publish()
        spool = self.reader()
        self.assertEqual(spool._step().number, 1)
        with self.assertRaises(SpoolDamaged) as damaged:
            self.now(spool)
        self.assertEqual((damaged.exception.first, damaged.exception.last), (2, 2))

    def test_a_link_is_introduced_anew(self) -> None:
        self.model.segment(b"one")
        self.model.append(b"two", introduced=introduction(1, 2, b"other", b"\xff", 3))
        self.model.append(b"three", introduced=introduction(1, 3, b"third", b"", 1))
        self.model.publish()
        spool = self.reader(follow=False)
        self.assertEqual([(r.link, r.connection, r.address, r.target_kind, r.target) for r in spool], [
            ("link", 1, "orders", TargetKind.ADDRESS, b"orders"),
            ("other", 2, None, TargetKind.OTHER, b"\xff"),
            ("third", 3, None, TargetKind.DYNAMIC, b""),
        ])

    def test_each_bit(self) -> None:
        """Whichever bit is wrong, records are missing, and none is another."""
        self.model.segment(b"one")
        self.model.append(b"two")
        self.model.publish()
        whole = [(1, b"one", "link"), (2, b"two", "link")]
        data = self.model.path(1).read_bytes()
        for bit in range(8 * len(data)):
            broken = bytearray(data)
            broken[bit // 8] ^= 1 << bit % 8
            self.model.path(1).write_bytes(broken)
            told = given(self.reader(follow=False))
            found = [(r.number, r.message, r.link) for r in told.records]
            self.assertTrue(found == whole[: len(found)] and len(found) < 2, bit)
            if bit < 640 and bit // 8 < 72:
                self.assertEqual(found, [])
            self.assertEqual(told.missing, [(len(found) + 1, 2)])

    def test_another_spool(self) -> None:
        self.model.segment(b"one")
        self.model.publish()
        spool = self.reader()
        self.assertEqual(self.now(spool), [(1, b"one")])
        self.assertEqual(spool.id, ID.hex())
        for path in Path(self.folder).iterdir():
            path.unlink()
        other = Model(self.folder, SECRET)
        other.segment(b"another")
        for _ in range(2):
            with self.assertRaises(OtherSpool):
                self.now(spool)
        other.publish()
        for _ in range(2):
            with self.assertRaises(OtherSpool):
                self.now(spool)

    def test_after(self) -> None:
        self.model.segment(b"one", b"two", b"three")
        self.model.publish()
        self.assertEqual(self.now(self.reader(after=2)), [(3, b"three")])
        later = self.reader(after=4)
        self.assertEqual(self.now(later), [])
        self.model.append(b"four", b"five")
        self.model.publish()
        self.assertEqual(self.now(later), [(5, b"five")])
        with self.assertRaises(ValueError):
            later.ack(5)
        self.assertEqual([r.number for r in self.reader(follow=False)], [1, 2, 3, 4, 5])

    def test_many_are_taken_at_once(self) -> None:
        self.model.segment(b"one", b"two", b"three", b"four")
        self.model.publish()
        spool = self.reader()
        self.assertEqual([r.number for r in spool.take(2)], [1, 2])
        self.assertEqual([r.number for r in spool.take(size=5)], [3])
        self.assertEqual([r.number for r in spool.take()], [4])
        self.model.append(b"five")
        self.model.segment(b"six")
        self.model.publish()
        os.truncate(self.model.path(1), 80)
        with self.assertRaises(SpoolDamaged):
            spool.take()
        self.assertEqual([r.number for r in spool.take()], [6])
        self.model.append(b"seven")
        self.model.segment(b"eight")
        self.model.segment(b"nine")
        self.model.publish()
        self.model.path(8).write_bytes(b"")
        self.assertEqual([r.number for r in spool.take()], [7])
        with self.assertRaises(SpoolDamaged):
            spool.take()
        self.assertEqual([r.number for r in spool.take()], [9])
        self.assertEqual(self.reader(after=9, follow=False).take(), [])

    def test_nothing_is_lost_where_the_system_refuses_a_call(self) -> None:
        self.model.segment(b"one")
        self.model.append(b"two")
        self.model.publish()
        refusals, real = 0, os.pread
        for refused in range(100):
            spool, calls, found = self.reader(follow=False), 0, []

            def pread(*words: Any) -> bytes:
                nonlocal calls
                calls += 1
                if calls == refused:
                    raise OSError(errno.EIO, "no")
                return real(*words)

            with mock.patch("os.pread", pread):
                while len(found) < 2:
                    try:
                        found.append(next(spool).number)
                    except OSError:
                        refusals += 1
            self.assertEqual(found, [1, 2])
            spool.close()
        self.assertGreater(refusals, 5)


class Consumes(WithModel):
    def setUp(self) -> None:
        super().setUp()
        self.model.segment(b"one", b"two", b"three")
        self.model.publish()
        self.at = Path(self.folder) / "sink.at"

    def test_it_acknowledges(self) -> None:
        self.model.add("sink", 1)
        spool = self.reader(consumer="sink")
        self.assertEqual((self.now(spool), spool.position), ([(2, b"two"), (3, b"three")], 1))
        for number, position in ((1, 1), (2, 2), (2, 2), (3, 3)):
            spool.ack(number)
            self.assertEqual((self.at.read_bytes(), spool.position), (self.model.position(position), position))
        self.assertEqual(self.at.stat().st_mode & 0o777, 0o600)
        for number in (2, 4, -1, 1 << 64):
            with self.assertRaises(ValueError):
                spool.ack(number)
        self.model.append(b"four")
        self.model.publish()
        spool.ack(4)
        self.model.append(b"five")
        with self.assertRaises(ValueError):
            spool.ack(5)
        self.assertEqual(self.at.read_bytes(), self.model.position(4))
        self.model.publish()
        spool.take()[-1].ack()
        self.assertEqual(self.at.read_bytes(), self.model.position(5))
        self.assertEqual(sorted(p.name for p in Path(self.folder).glob("sink*")), ["sink.at", "sink.at.lock"])
        spool.close()
        self.assertEqual(self.now(self.reader(consumer="sink")), [])

    def test_an_acknowledgement_is_synced_before_it_has_its_name(self) -> None:
        self.model.add("sink")
        spool, calls = self.reader(consumer="sink"), []
        sync, rename = os.fsync, os.rename
        with mock.patch("os.fsync", lambda fd: calls.append(os.path.basename(os.readlink(f"/proc/self/fd/{fd}"))) or sync(fd)):
            with mock.patch("os.rename", lambda a, b, **words: calls.append((a, b)) or rename(a, b, **words)):
                spool.ack(1)
                spool.ack(1)
        self.assertEqual(calls, ["sink.at.tmp", ("sink.at.tmp", "sink.at"), os.path.basename(self.folder)])
        for name in ("fsync", "write", "rename"):
            with mock.patch(f"os.{name}", side_effect=OSError(errno.EIO, "no")):
                with self.assertRaises(OSError):
                    spool.ack(2)
            self.assertEqual((self.at.read_bytes(), spool.position), (self.model.position(1), 1))
        made = []
        with mock.patch("os.fsync", lambda fd: made.append(os.fstat(fd).st_ino) or sync(fd)):
            spool.ack(2)
        self.assertEqual(self.at.stat().st_ino, made[0])
        self.assertEqual(self.at.read_bytes(), self.model.position(2))

    def test_one_process_reads_as_a_consumer(self) -> None:
        self.model.add("sink")
        self.model.add("other")
        spool = self.reader(consumer="sink")
        with self.assertRaises(Locked):
            Spool(self.folder, consumer="sink")
        self.reader(consumer="other")
        spool.close()
        with self.assertRaises(ValueError):
            next(spool)
        with Spool(self.folder, consumer="sink") as again:
            self.assertEqual(next(again).number, 1)
        self.reader(consumer="sink")
        self.assertEqual((Path(self.folder) / "sink.at.lock").stat().st_mode & 0o777, 0o600)

    def test_a_position_that_can_not_be_read_counts_as_0(self) -> None:
        whole = self.model.position(2)
        for data in (b"", whole[:-1], whole + b"\n", whole.replace(b"2", b"1"), whole.upper()):
            self.at.write_bytes(data)
            with warnings.catch_warnings(record=True) as told:
                warnings.simplefilter("always")
                with Spool(self.folder, consumer="sink") as spool:
                    self.assertEqual([r.number for r in spool.take()], [1, 2, 3])
                    self.assertEqual(spool.position, 0)
                    spool.ack(0)
            self.assertIn("can't be read", str(told[0].message))
            self.assertEqual(os.path.basename(told[0].filename), os.path.basename(__file__))
            self.assertEqual(self.at.read_bytes(), self.model.position(0))

    def test_a_position_below_the_floor(self) -> None:
        self.model.segment(b"four")
        self.model.publish()
        self.model.raise_floor(3)
        self.at.write_bytes(b"")
        with warnings.catch_warnings():
            warnings.simplefilter("ignore")
            with Spool(self.folder, consumer="sink") as spool:
                self.assertEqual(self.now(spool), [(4, b"four")])
        self.model.add("sink", 1)
        spool = self.reader(consumer="sink")
        with self.assertRaises(Gap) as gap:
            next(spool)
        self.assertEqual((gap.exception.first, gap.exception.last), (2, 3))
        self.assertEqual(self.now(spool), [(4, b"four")])

    def test_a_position_of_another_spool(self) -> None:
        self.at.write_bytes(Model(self.folder, SECRET).position(2))
        with self.assertRaises(OtherSpool):
            Spool(self.folder, consumer="sink")
        (Path(self.folder) / "end").unlink()
        spool = self.reader(consumer="sink")
        with self.assertRaises(OtherSpool):
            next(spool)

    def test_a_consumer_that_is_not_there(self) -> None:
        with self.assertRaises(NoConsumer):
            Spool(self.folder, consumer="sink")
        self.assertEqual(list(Path(self.folder).glob("sink*")), [])
        self.model.add("sink")
        spool = self.reader(consumer="sink")
        self.at.unlink()
        with self.assertRaises(NoConsumer):
            spool.ack(1)
        self.assertFalse(self.at.exists())
        with self.assertRaises(FileNotFoundError):
            Spool(self.folder + "/nowhere")

    def test_names(self) -> None:
        for name in ("", "A", "-a", "_a", "a.b", "a/b", "\u00e9", "a" * 65, "a\n", "\u0663"):
            for call in (lambda: Spool(self.folder, consumer=name), lambda: Spool.add(self.folder, name)):
                with self.assertRaises(ValueError):
                    call()
        for name in ("a", "0", "a" * 64, "a-_0"):
            self.assertEqual(Spool.add(self.folder, name), 0)
            self.reader(consumer=name)
        for wrong in ({"consumer": b"sink"}, {"after": "1"}, {"after": 1.0}):
            with self.assertRaises(TypeError):
                Spool(self.folder, **wrong)
        for wrong in ({"consumer": "sink", "after": 1}, {"after": -1}, {"after": 1 << 64}, {"poll": 0}):
            with self.assertRaises(ValueError):
                Spool(self.folder, **wrong)

    def test_consumers_are_added(self) -> None:
        self.assertEqual(Spool.add(self.folder, "sink"), 0)
        self.assertEqual(self.at.read_bytes(), self.model.position(0))
        self.assertEqual(self.at.stat().st_mode & 0o777, 0o600)
        with self.assertRaisesRegex(SpoolError, "has a consumer sink"):
            Spool.add(self.folder, "sink")
        self.model.segment(b"four")
        self.model.publish()
        self.model.remove(1)
        self.assertEqual(Spool.add(self.folder, "second"), 3)
        self.model.raise_floor(4)
        self.assertEqual(Spool.add(self.folder, "third"), 4)
        with open(Path(self.folder) / "consumers.lock", "rb") as lock, mock.patch("wuleshomia._spool._LOCK_SECONDS", 0.05):
            fcntl.flock(lock, fcntl.LOCK_EX)
            with self.assertRaises(Locked):
                Spool.add(self.folder, "fourth")
        for count in range(61):
            Spool.add(self.folder, f"c{count}")
        with self.assertRaisesRegex(SpoolError, "64"):
            Spool.add(self.folder, "fourth")
        (Path(self.folder) / "c0.at").unlink()
        (Path(self.folder) / "floor").write_bytes(b"torn")
        with self.assertRaises(SpoolError):
            Spool.add(self.folder, "fourth")
        Model(self.folder, SECRET).raise_floor(1)
        with self.assertRaises(OtherSpool):
            Spool.add(self.folder, "fourth")
        with tempfile.TemporaryDirectory() as empty:
            with self.assertRaises(SpoolError):
                Spool.add(empty, "sink")


if __name__ == "__main__":
    ROWS = Path(sys.argv.pop(1)).read_text()
    unittest.main()
