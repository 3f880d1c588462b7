"""What the package refuses, and how: wrong types and ranges, an endpoint that was freed, a second thread; what a top-up gives, and what is
said of an error.

    misuse.py FILE
"""

from __future__ import annotations

import copy
import ctypes
import pickle
import sys
import threading
import unittest

from wuleshomia import AddressKind, AmqpError, Attached, Code, End, Endpoint, Error, Failed, Limit, Outcome, Ready, Receipt, conditions
from wuleshomia._native import Fed, Handle, lib

DATA = b""

# A header, an open, a begin and an attach of one link.
HEAD = bytes.fromhex(
    "414d515000010000"
    "00000011020000000053 10c00401a10170"
    "00000014020000000053 11c00704 4043527f527f"
    "00000020020000000053 12c0130a a1016c434240400053284500532945404043"
)


def transfer(id: int) -> bytes:
    """A whole message on it, that is not settled."""
    return bytes.fromhex(f"0000001c020000000053 14c00905 4352{id:02x}a001{id:02x}4342 005377a10178")


class Refusals(unittest.TestCase):
    def test_settings(self) -> None:
        for words in ({"max_frame": 511}, {"channel_max": 256}, {"allowed": 0}, {"window": 1 << 31}, {"max_message": -1}, {"window": 1 << 32}):
            with self.assertRaises(ValueError):
                Endpoint("x", **words)
        for words in ({"max_frame": 512.0}, {"window": "1"}, {"allowed": True}, {"handle_max": None}):
            with self.assertRaises(TypeError):
                Endpoint("x", **words)
        for name in ("", "x" * 256, "\ud800"):
            with self.assertRaises(ValueError):
                Endpoint(name)
        with self.assertRaises(TypeError):
            Endpoint(b"x")

    def test_limits(self) -> None:
        with self.assertRaisesRegex(ValueError, "more than 16 rows"):
            Endpoint("x", limits=[Limit(str(n), 1, 1) for n in range(17)])
        with self.assertRaisesRegex(ValueError, "row 1 .*earlier"):
            Endpoint("x", limits=[Limit("a", 1, 1), Limit("a", 2, 2)])
        for limit in (Limit("", 1, 1), Limit("a" * 256, 1, 1), Limit("a" * 70000, 1, 1), Limit("a", 1025, 1)):
            with self.assertRaisesRegex(ValueError, "row 0"):
                Endpoint("x", limits=[limit])
        Endpoint("x", limits=[Limit("a" * 255, 1024, 1 << 30)]).free()

    def test_numbers(self) -> None:
        endpoint = Endpoint("x")
        for call in (
            lambda n: endpoint.grant(n, 0, 1),
            lambda n: endpoint.grant(0, n, 1),
            lambda n: endpoint.grant(0, 0, n),
            lambda n: endpoint.widen(0, n),
            lambda n: endpoint.drain(0, n),
            lambda n: endpoint.settle(0, n),
            lambda n: endpoint.settle_range(0, 0, n),
            lambda n: endpoint.detach(0, n),
            lambda n: endpoint.refuse(n, 0, Error("a:b")),
            lambda n: endpoint.refuse(0, n, Error("a:b")),
            lambda n: endpoint.settle(0, n, error=Error("a:b")),
            lambda n: endpoint.settle_range(0, n, 0, error=Error("a:b")),
            lambda n: endpoint.take(0, n),
            lambda n: endpoint.window(n),
            lambda n: endpoint.link(0, n),
            lambda n: endpoint.top_up(0, n, 1),
            lambda n: endpoint.top_up(n, 1, 1),
            lambda n: endpoint.top_up(0, 1, n),
            lambda n: list(endpoint.serve(b"", credit=n)),
        ):
            for n in (-1, 1 << 32, 1 << 70):
                with self.assertRaises(ValueError):
                    call(n)
            for word in ("1", 1.0, None, b"1", True):
                with self.assertRaises(TypeError):
                    call(word)
        with self.assertRaises(ValueError):
            endpoint.settle(0, 0, 7)
        for data in ("text", 7, None, [1]):
            with self.assertRaises(TypeError):
                endpoint.feed(data)
            with self.assertRaises(TypeError):
                endpoint.serve(data)
        with self.assertRaises(AmqpError) as refused:
            endpoint.grant(0xFFFFFFFF, 0xFFFFFFFF, 0xFFFFFFFF)
        self.assertIs(refused.exception.code, Code.NO_SESSION)

    def test_freed(self) -> None:
        endpoint = Endpoint("x")
        events = endpoint.feed(b"AMQP\0\1\0\0")
        endpoint.free()
        endpoint.free()
        for call in (
            lambda: list(events),
            lambda: list(endpoint.feed(b"")),
            lambda: list(endpoint.serve(b"")),
            lambda: endpoint.grant(0, 0, 1),
            lambda: endpoint.take(0, 0),
            lambda: endpoint.link(0, 0),
            lambda: endpoint.top_up(0, 1, 1),
            lambda: endpoint.refuse(0, 0, Error("a:b")),
            lambda: endpoint.settle(0, 0, error=Error("")),
            lambda: endpoint.settle_range(0, 0, 0, error=Error("a:b")),
            lambda: endpoint.close(Error("a:b")),
            endpoint.finish,
            endpoint.close,
            endpoint.heartbeat,
        ):
            with self.assertRaises(AmqpError) as refused:
                call()
            self.assertIs(refused.exception.code, Code.NO_ENDPOINT)
        self.assertEqual((endpoint.output(), endpoint.held, endpoint.is_over), (b"", 0, True))

    def test_never_copied(self) -> None:
        endpoint = Endpoint("x")
        for double in (copy.copy, copy.deepcopy, pickle.dumps):
            with self.assertRaises(TypeError):
                double(endpoint)

    def test_threads(self) -> None:
        endpoint = Endpoint("x")
        seen: set[str] = set()

        def hammer() -> None:
            for _ in range(20000):
                try:
                    endpoint.window(0)
                    list(endpoint.feed(b""))
                except (AmqpError, RuntimeError) as refused:
                    seen.add(type(refused).__name__)

        threads = [threading.Thread(target=hammer) for _ in range(4)]
        for thread in threads:
            thread.start()
        for thread in threads:
            thread.join()
        self.assertIn("AmqpError", seen)
        with endpoint._lock:
            with self.assertRaises(RuntimeError):
                endpoint.window(0)
            with self.assertRaises(RuntimeError):
                endpoint.free()
            with self.assertRaises(RuntimeError):
                list(endpoint.feed(b""))

    def test_top_up(self) -> None:
        """A link gets what it lacks of the credit, beside deliveries that are not settled, and no more than it is allowed."""
        for allowed, sent, credit in ((1024, 10, 16), (1024, 8, 16), (1024, 7, 9), (20, 10, 10), (16, 10, 6)):
            endpoint = Endpoint("x", allowed=allowed)
            for event in endpoint.feed(HEAD):
                if isinstance(event, Attached):
                    endpoint.top_up(0, 16, 2048)
            for id in range(sent):
                for event in endpoint.feed(transfer(id)):
                    self.assertEqual(endpoint.take(event.channel, event.handle).tag, bytes([id]))
            link = endpoint.link(0, 0)
            self.assertEqual((link.credit, link.opened), (16 - sent, sent))
            for _ in range(2):
                endpoint.top_up(0, 16, 2048)
                self.assertEqual(endpoint.link(0, 0).credit, credit)
        endpoint = Endpoint("x")
        with self.assertRaises(AmqpError) as refused:
            endpoint.top_up(0, 16, 2048)
        self.assertIs(refused.exception.code, Code.NO_SESSION)

    def test_a_target_tells_its_address(self) -> None:
        named, dynamic, absent = "005329c00401a10171", "005329c006054040404041", "00532945"
        for target, kind, address in (
            (named, AddressKind.NAMED, "q"),
            ("005329c00501a102c3a9", AddressKind.NAMED, "\u00e9"),
            (dynamic, AddressKind.DYNAMIC, None),
            (absent, AddressKind.ABSENT, None),
            ("40", AddressKind.NO_TARGET, None),
            ("005329c00401a30171", AddressKind.OTHER, None),
        ):
            size = len(target) // 2
            attach = f"000000{28 + size:02x}020000000053 12c0{15 + size:02x}0a a1016c43424040 00532845{target}404043".replace(" ", "")
            endpoint = Endpoint("x")
            for _ in endpoint.feed(HEAD[:-32] + bytes.fromhex(attach)):
                pass
            link = endpoint.link(0, 0)
            self.assertEqual((link.address_kind, link.address), (kind, address))

    def test_window_is_topped_up(self) -> None:
        endpoint = Endpoint("x", window=4)
        for event in endpoint.feed(HEAD):
            pass
        endpoint.top_up(0, 16, 8)
        self.assertEqual(endpoint.window(0), 8)
        endpoint.top_up(0, 16, 12)
        self.assertEqual(endpoint.window(0), 8)

    # The frames that follow were written by hand, from the standard: 2.7.6, 2.7.7, 2.7.9, 2.8.14 and 3.4.3.

    def with_deliveries(self, count: int) -> Endpoint:
        """An endpoint with a link at handle 0, of which so many messages are taken, and all written out."""
        endpoint = Endpoint("x")
        for event in endpoint.feed(HEAD):
            if isinstance(event, Attached):
                endpoint.top_up(0, 16, 2048)
        for id in range(count):
            for event in endpoint.feed(transfer(id)):
                endpoint.take(event.channel, event.handle)
        endpoint.output()
        return endpoint

    def test_errors_are_told(self) -> None:
        endpoint = self.with_deliveries(3)
        endpoint.settle(0, 0, error=Error(conditions.DECODE_ERROR, "no \u00e9"))
        self.assertEqual(
            endpoint.output(),
            bytes.fromhex("00000038020000000053 15c02b05 41434041 005325c02101 00531dc01b02 a311")
            + b"amqp:decode-error"
            + bytes.fromhex("a105 6e6f20c3a9"),
        )
        self.assertEqual(endpoint.settle_range(0, 1, 2, Outcome.REJECTED, error=Error("amqp:decode-error")), 2)
        self.assertEqual(
            endpoint.output(),
            bytes.fromhex("00000033020000000053 15c02605 415201520241 005325c01a01 00531dc01401 a311") + b"amqp:decode-error",
        )
        self.assertEqual(endpoint.refuse(0, 0, Error(conditions.NOT_FOUND, "no such queue")), 0)
        self.assertEqual(
            endpoint.output(),
            bytes.fromhex("00000035020000000053 16c02803 4341 00531dc02002 a30e") + b"amqp:not-found" + b"\xa1\x0dno such queue",
        )
        self.assertEqual(endpoint.close(Error(conditions.CONNECTION_FORCED, "going down")), 0)
        self.assertEqual(
            endpoint.output(),
            bytes.fromhex("00000038020000000053 18c02b01 00531dc02502 a316") + b"amqp:connection:forced" + b"\xa1\x0agoing down",
        )
        for call in self.calls_with(endpoint):
            self.refused(Code.CONNECTION_OVER, call, Error(""))

    @staticmethod
    def calls_with(endpoint: Endpoint) -> tuple:
        return (
            lambda error: endpoint.refuse(0, 0, error),
            lambda error: endpoint.settle(0, 0, error=error),
            lambda error: endpoint.settle_range(0, 0, 1, error=error),
            lambda error: endpoint.close(error),
        )

    def refused(self, code: Code, call, *words: object) -> None:
        with self.assertRaises(AmqpError) as refused:
            call(*words)
        self.assertIs(refused.exception.code, code)

    def test_words_that_are_not_valid(self) -> None:
        endpoint = self.with_deliveries(2)
        held = endpoint.held
        for call in self.calls_with(endpoint):
            for condition in ("", "c" * 65, "c" * 70000, "\u00e9", "a\tb", "a\x7f"):
                self.refused(Code.BAD_ERROR, call, Error(condition))
            for text in ("t" * 256, "t" * 70000, "\u00e9" * 128):
                self.refused(Code.BAD_ERROR, call, Error("a:b", text))
            for error in (Error("a\0b"), Error("a:b", "\0"), Error("a:b", "t\0"), Error("a:b", "\ud800")):
                with self.assertRaises(ValueError):
                    call(error)
            for wrong in ("amqp:not-found", 7, ("a:b", None), Error(7), Error(b"a:b"), Error("a:b", b"t")):
                with self.assertRaises(TypeError):
                    call(wrong)
        for outcome in (Outcome.ACCEPTED, Outcome.RELEASED, 0, 7):
            with self.assertRaises(ValueError):
                endpoint.settle(0, 0, outcome, error=Error("a:b"))
            with self.assertRaises(ValueError):
                endpoint.settle_range(0, 0, 1, outcome, error=Error("a:b"))
        with self.assertRaises(TypeError):
            endpoint.refuse(0, 0, None)
        self.refused(Code.NO_LINK, endpoint.refuse, 0, 1, Error(""))  # what is so besides comes first
        self.assertEqual((endpoint.held, endpoint.output()), (held, b""))

    def test_the_most_that_may_be_said(self) -> None:
        endpoint = self.with_deliveries(0)
        endpoint.refuse(0, 0, Error("c" * 64, "\u00e9" * 127 + "x"))
        front = bytes.fromhex("00000165020000000053 16d00000015500000003 4341 00531dd00000014700000002 a340")
        self.assertEqual(endpoint.output(), front + b"c" * 64 + b"\xa1\xff" + b"\xc3\xa9" * 127 + b"x")
        endpoint.close(Error("x", ""))
        self.assertEqual(endpoint.output(), bytes.fromhex("00000019020000000053 18c00c01 00531dc00602 a30178 a100"))

    def test_a_full_output_is_taken_aside(self) -> None:
        endpoint = self.with_deliveries(1)
        for _ in range(2000):
            endpoint.grant(0, 0, 0)
        endpoint.settle(0, 0, error=Error("a:b"))
        endpoint.refuse(0, 0, Error("a:b"))
        endpoint.close(Error("a:b"))
        self.assertTrue(endpoint.output().endswith(bytes.fromhex("00000019020000000053 18c00c01 00531dc00601 a303613a62")))

    def test_null(self) -> None:
        """NULL with a length is refused also where no header is read."""
        handle, fed = Handle(), Fed()
        self.assertEqual(lib.wule_feed(ctypes.addressof(handle), None, 1, ctypes.addressof(fed)), Code.NULL)
        self.assertEqual(lib.wule_feed(ctypes.addressof(handle), None, 0, ctypes.addressof(fed)), Code.NO_ENDPOINT)
        self.assertEqual(lib.wule_output(ctypes.addressof(handle), None, 1), 0)
        self.assertEqual(lib.wule_take(ctypes.addressof(handle), 0, 0, ctypes.addressof(fed), None, 1), Code.NULL)

    def test_steps_are_calls(self) -> None:
        """Serving gives the messages that taking them gives."""
        taken, ids = [], 0
        endpoint = Endpoint("recv")
        for event in endpoint.feed(DATA):
            if isinstance(event, Ready):
                message = endpoint.take(event.channel, event.handle)
                taken.append((event.channel, event.handle, message.id, message.format, message.body))
                if not message.settled:
                    endpoint.settle(event.channel, message.id, Outcome.ACCEPTED)
            if isinstance(event, (Attached, Ready)):
                endpoint.top_up(event.channel, 16, 2048)
            ids += isinstance(event, Failed)
        served = Endpoint("recv")
        steps = list(served.serve(DATA, credit=16))
        records = [(r.channel, r.handle, r.id, r.format, r.body) for step in steps for r in step.records]
        self.assertEqual(records, taken)
        self.assertEqual(sum(step.receipt in (Receipt.TOLD, Receipt.SETTLED) for step in steps), len(taken))
        self.assertEqual(sum(isinstance(step.event, Failed) for step in steps), ids)
        self.assertEqual((endpoint.finish(), served.finish()), (End.CLOSED, End.CLOSED))


if __name__ == "__main__":
    with open(sys.argv.pop(1), "rb") as file:
        DATA = file.read()
    unittest.main()
