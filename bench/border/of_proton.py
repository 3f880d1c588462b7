#!/usr/bin/env python3
"""of_proton.py FILE CREDIT: the same over Proton's binding for Python (its Transport and Collector)."""
import sys
import time

from proton import Collector, Connection, Delivery, Event, Transport

PIECE = 4096


def opening_of(data):
    """How long the opening is, up to the first transfer: Proton takes no transfer that comes with it."""
    at = 8
    while data[at + 10] != 0x14:
        at += int.from_bytes(data[at : at + 4], "big")
    return at


class Receiver:
    def __init__(self, credit):
        self.credit, self.used, self.messages = credit, 0, 0

    def act_on(self, event):
        kind = event.type
        if kind == Event.DELIVERY:
            self.take(event.delivery)
        elif kind == Event.CONNECTION_REMOTE_OPEN:
            event.connection.open()
        elif kind == Event.SESSION_REMOTE_OPEN:
            event.session.open()
        elif kind == Event.LINK_REMOTE_OPEN:
            event.link.open()
            event.link.flow(self.credit)
        elif kind == Event.CONNECTION_REMOTE_CLOSE:
            event.connection.close()

    def take(self, delivery):
        link = delivery.link
        if not delivery.readable or delivery.partial:
            return
        link.recv(delivery.pending)
        self.messages += 1
        link.advance()
        delivery.update(Delivery.ACCEPTED)
        delivery.settle()
        self.used += 1
        if self.used >= self.credit // 2:
            link.flow(self.used)
            self.used = 0


def main():
    with open(sys.argv[1], "rb") as file:
        data = file.read()
    receiver, transport, connection, collector = Receiver(int(sys.argv[2])), Transport(Transport.SERVER), Connection(), Collector()
    connection.collect(collector)
    transport.bind(connection)
    opening, at, wrote = opening_of(data), 0, 0

    def follow():
        while event := collector.peek():
            receiver.act_on(event)
            collector.pop()

    began = time.process_time()
    while at < len(data):
        end = opening if at < opening else at + PIECE
        n = transport.push(data[at:end])
        at += len(data[at:end]) if n is None else n
        follow()
        while (pending := transport.pending()) > 0:
            wrote += len(transport.peek(pending))
            transport.pop(pending)
            follow()
        if pending < 0:
            break
    seconds = time.process_time() - began
    print(f"messages={receiver.messages} wrote={wrote} seconds={seconds:.4f}")


main()
