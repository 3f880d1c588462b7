"""A gateway over asyncio: many connections, each with one proved endpoint, and TLS if a certificate is given.

    gateway.py PORT [--tls CERTIFICATE KEY] [--connections N]

A link has to be for one of the addresses that it knows, else it is refused. It accepts each message, or rejects it and says why, and tells
at the end of a connection how many came. A peer that is silent for a minute is given up, and an empty frame is written every 15 seconds.
With --connections it ends after so many.
"""

from __future__ import annotations

import argparse
import asyncio
import ssl
import sys

from wuleshomia import (
    End,
    Endpoint,
    Event,
    Failed,
    Link,
    Message,
    Outcome,
    ReceiverProtocol,
    Refuse,
    Reject,
    conditions,
)

IDLE_SECONDS = 30
ADDRESSES = {"queue", "orders"}


def on_attach(link: Link) -> Refuse | None:
    """Takes a link, or refuses it before it has sent anything."""
    return None if link.address in ADDRESSES else Refuse(conditions.NOT_FOUND, "no such address")


def fault_of(message: Message) -> str | None:
    """What is wrong with a message, if anything is."""
    if message.format != 0:
        return "the message-format is not 0"
    return None if message.body else "the message is empty"


class Gateway:
    """All connections."""

    def __init__(self, left: int) -> None:
        self._left = left
        self._done = asyncio.get_running_loop().create_future()

    def connection(self) -> ReceiverProtocol:
        """A new one."""
        counts = {"messages": 0, "bytes": 0}

        def on_message(link: Link, message: Message) -> Outcome | Reject:
            fault = fault_of(message)
            counts["messages"] += 1  # here the message is processed, unless it has a fault
            counts["bytes"] += len(message.body)
            return Reject(conditions.DECODE_ERROR, fault) if fault else Outcome.ACCEPTED

        def on_event(event: Event) -> None:
            if isinstance(event, Failed):
                print(f"failed: scope {int(event.scope)}, {event.condition.symbol}", file=sys.stderr, flush=True)

        def on_end(end: End) -> None:
            print(f"{end.name.lower()}, {counts['messages']} messages, {counts['bytes']} bytes", flush=True)
            self._left -= 1
            if self._left == 0:
                self._done.set_result(None)

        endpoint = Endpoint("gateway", allowed=200, idle_time_out=IDLE_SECONDS * 1000)
        return ReceiverProtocol(
            endpoint,
            on_message,
            on_event,
            on_end,
            on_attach=on_attach,
            credit=100,
            idle_time_out=2 * IDLE_SECONDS,
            heartbeat=IDLE_SECONDS / 2,
        )

    async def until_done(self) -> None:
        await self._done


async def serve(port: int, tls: ssl.SSLContext | None, connections: int) -> None:
    gateway = Gateway(connections)
    server = await asyncio.get_running_loop().create_server(gateway.connection, "127.0.0.1", port, ssl=tls)
    async with server:
        await gateway.until_done()


def main() -> None:
    parser = argparse.ArgumentParser(description=(__doc__ or "").split("\n")[0])
    parser.add_argument("port", type=int)
    parser.add_argument("--tls", nargs=2, metavar=("CERTIFICATE", "KEY"))
    parser.add_argument("--connections", type=int, default=0)
    words = parser.parse_args()
    tls = None
    if words.tls:
        tls = ssl.SSLContext(ssl.PROTOCOL_TLS_SERVER)
        tls.load_cert_chain(*words.tls)
    asyncio.run(serve(words.port, tls, words.connections))


if __name__ == "__main__":
    main()
