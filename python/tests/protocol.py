"""What ReceiverProtocol asks of its functions, and what it makes of their answers, over a transport that keeps what is written."""

from __future__ import annotations

import unittest
from typing import Any, Callable

from wuleshomia import (
    AddressKind,
    AmqpError,
    Attached,
    Code,
    Credit,
    Detached,
    Endpoint,
    Event,
    Link,
    Message,
    Outcome,
    ReceiverProtocol,
    Refuse,
    Reject,
    conditions,
)

# A header, an open, and a begin on channel 0.
HEAD = bytes.fromhex("414d515000010000 0000001102000000005310c00401a10170 0000001402000000005311c007044043527f527f")
# The frames that are wanted were written by hand, from the standard: 2.7.4, 2.7.6, 2.7.7, 2.8.14 and 3.4.3.
FLOW = bytes.fromhex("005313")
DETACH = bytes.fromhex("0000003502000000005316c028034341 00531dc02002a30e") + b"amqp:not-found" + b"\xa1\x0dno such queue"
REJECTED = bytes.fromhex("0000003402000000005315c0270541434041 005325c01d01 00531dc01702a311") + b"amqp:decode-error" + b"\xa1\x01x"
ACCEPTED = bytes.fromhex("0000001602000000005315c0090541434041 00532445")


def attach(handle: int, address: bytes) -> bytes:
    """A sender at a handle, whose name is as long as the number and whose target is the address."""
    target = b"\0\x53\x29\xc0" + bytes([3 + len(address), 1]) + b"\xa1" + bytes([len(address)]) + address
    fields = b"\xa1\x01" + b"abc"[handle : handle + 1] + b"\x52" + bytes([handle]) + b"\x42\x40\x40\0\x53\x28\x45" + target + b"\x40\x40\x43"
    return bytes([0, 0, 0, 14 + len(fields), 2, 0, 0, 0, 0, 0x53, 0x12, 0xC0, 1 + len(fields), 10]) + fields


def transfer(handle: int, id: int, settled: bool = False) -> bytes:
    """A whole message."""
    return bytes.fromhex(f"0000001d020000000053 14c00a05 52{handle:02x}52{id:02x}a001{id:02x}43{41 if settled else 42} 005377a10178")


def detach(handle: int) -> bytes:
    return bytes.fromhex(f"0000001102000000005316c00402 52{handle:02x}41")


class Transport:
    """What is written to the peer."""

    def __init__(self) -> None:
        self.written = b""
        self.is_closed = False

    def write(self, data: bytes) -> None:
        self.written += data

    def close(self) -> None:
        self.is_closed = True

    def taken(self) -> bytes:
        data, self.written = self.written, b""
        return data


class Received:
    """A protocol whose peer has begun a session; what it was told, and what it told."""

    def __init__(
        self,
        on_message: Callable[[Link, Message], Any] = lambda link, message: Outcome.ACCEPTED,
        places: int = 2048,
        **words: Any,
    ) -> None:
        self.events: list[Event] = []
        self.transport = Transport()
        self.protocol = ReceiverProtocol(Endpoint("x", window=places), on_message, self.events.append, **words)
        self.protocol.connection_made(self.transport)  # type: ignore[arg-type]
        self.hear(HEAD)

    def hear(self, data: bytes) -> bytes:
        """What is answered."""
        self.transport.taken()
        self.protocol.data_received(data)
        return self.transport.taken()

    def credit(self, handle: int) -> int:
        return self.protocol.endpoint.link(0, handle).credit


class Attaching(unittest.TestCase):
    def test_without_a_function_each_link_is_topped_up(self) -> None:
        peer = Received(credit=10)
        self.assertIn(FLOW, peer.hear(attach(0, b"queue") + attach(1, b"q")))
        self.assertEqual((peer.credit(0), peer.credit(1)), (10, 10))

    def test_it_is_asked_before_anything_is_granted(self) -> None:
        asked = []

        def on_attach(link: Link) -> None:
            asked.append((link, peer.protocol.endpoint.output()))

        peer = Received(on_attach=on_attach, credit=10)
        peer.hear(attach(1, "\u00e9".encode()))
        link, answers = asked[0]
        self.assertEqual((link.channel, link.handle, link.name, link.credit), (0, 1, "b", 0))
        self.assertEqual((link.address, link.address_kind), ("\u00e9", AddressKind.NAMED))
        self.assertNotIn(FLOW, answers)
        self.assertEqual(peer.credit(1), 10)
        self.assertEqual(peer.events[-1], Attached(0, 1))

    def test_a_link_is_refused(self) -> None:
        peer = Received(on_attach=lambda link: None if link.address == "queue" else Refuse(conditions.NOT_FOUND, "no such queue"))
        answers = peer.hear(attach(0, b"other"))
        self.assertTrue(answers.endswith(DETACH), answers.hex())
        self.assertNotIn(FLOW, answers)
        self.assertEqual(peer.events[-1], Attached(0, 0))
        with self.assertRaises(AmqpError) as refused:
            peer.credit(0)
        self.assertIs(refused.exception.code, Code.NO_LINK)
        self.assertEqual(peer.hear(detach(0)), b"")
        self.assertEqual(peer.events[-1], Detached(0, 0, 0))
        self.assertIn(FLOW, peer.hear(attach(0, b"queue")))
        self.assertEqual(peer.credit(0), 16)
        self.assertFalse(peer.transport.is_closed)

    def test_a_link_is_given_a_credit_of_its_own(self) -> None:
        peer = Received(on_attach=lambda link: Credit(3) if link.address == "slow" else None)
        peer.hear(attach(0, b"slow") + attach(1, b"fast"))
        self.assertEqual((peer.credit(0), peer.credit(1)), (3, 16))
        for id, credits in ((0, (2, 16)), (1, (3, 16))):  # 1 is half of 3
            peer.hear(transfer(0, id))
            self.assertEqual((peer.credit(0), peer.credit(1)), credits)
        for id in range(2, 10):
            peer.hear(transfer(1, id))
        self.assertEqual((peer.credit(0), peer.credit(1)), (3, 16))

    def test_a_link_with_no_credit_gets_what_it_is_granted(self) -> None:
        peer = Received(on_attach=lambda link: Credit(0))
        self.assertNotIn(FLOW, peer.hear(attach(0, b"queue")))
        peer.protocol.endpoint.grant(0, 0, 1)
        peer.hear(transfer(0, 0))
        self.assertEqual(peer.credit(0), 0)
        for n in (-1, 1 << 32):
            with self.assertRaises(ValueError):
                Credit(n)
        with self.assertRaises(TypeError):
            Credit("3")  # type: ignore[arg-type]

    def test_credit_stays_within_what_a_link_is_allowed(self) -> None:
        peer = Received(lambda link, message: None, on_attach=lambda link: Credit(100))
        peer.hear(attach(0, b"queue"))
        self.assertEqual(peer.credit(0), 16)
        for id in range(12):
            peer.hear(transfer(0, id))
        self.assertEqual(peer.credit(0), 4)  # 12 are not settled
        peer.protocol.settle(0, 0)
        self.assertEqual(peer.credit(0), 5)

    def test_the_window_is_topped_up_too(self) -> None:
        for on_attach in (None, lambda link: None, lambda link: Credit(0)):
            peer = Received(places=4, on_attach=on_attach, window=8)
            peer.hear(attach(0, b"queue"))
            self.assertEqual(peer.protocol.endpoint.window(0), 8)

    def test_a_link_that_ended_is_passed_over(self) -> None:
        peer = Received(lambda link, message: None, on_attach=lambda link: Credit(4))
        peer.hear(attach(0, b"queue") + attach(1, b"queue") + transfer(0, 0))
        peer.hear(detach(1))
        peer.protocol.settle(0, 0)
        self.assertEqual(peer.credit(0), 3)
        with self.assertRaises(AmqpError):
            peer.credit(1)

    def test_other_answers_are_raised(self) -> None:
        for answer in (Outcome.ACCEPTED, 3, "amqp:not-found", Reject("a:b")):
            with self.assertRaises(TypeError):
                Received(on_attach=lambda link: answer).hear(attach(0, b"queue"))
        with self.assertRaises(AmqpError) as refused:
            Received(on_attach=lambda link: Refuse("")).hear(attach(0, b"queue"))
        self.assertIs(refused.exception.code, Code.BAD_ERROR)


class Messages(unittest.TestCase):
    def test_a_message_is_rejected(self) -> None:
        peer = Received(lambda link, message: Reject(conditions.DECODE_ERROR, "x"))
        peer.hear(attach(0, b"queue"))
        self.assertEqual(peer.hear(transfer(0, 0)), REJECTED)
        self.assertNotIn(b"amqp:", peer.hear(transfer(0, 1, settled=True)))

    def test_a_message_is_rejected_later(self) -> None:
        peer = Received(lambda link, message: None)
        peer.hear(attach(0, b"queue"))
        self.assertEqual(peer.hear(transfer(0, 0)), b"")
        peer.protocol.settle(0, 0, Reject(conditions.DECODE_ERROR, "x"))
        self.assertEqual(peer.transport.taken(), REJECTED)

    def test_outcomes_are_as_they_were(self) -> None:
        peer = Received()
        peer.hear(attach(0, b"queue"))
        self.assertEqual(peer.hear(transfer(0, 0)), ACCEPTED)

    def test_words_that_are_not_valid_are_raised(self) -> None:
        peer = Received(lambda link, message: Reject("c" * 65))
        peer.hear(attach(0, b"queue"))
        with self.assertRaises(AmqpError) as refused:
            peer.hear(transfer(0, 0))
        self.assertIs(refused.exception.code, Code.BAD_ERROR)


if __name__ == "__main__":
    unittest.main()
