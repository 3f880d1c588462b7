"""The twin of crates/example_receive: over the same file it prints the same lines.   receive.py FILE [PIECE]"""

from __future__ import annotations

import sys

from wuleshomia import AmqpError, Code, Endpoint, Failed, Ready, Scope

CREDIT, WINDOW, PLACES, SHOWN = 16, 2048, 8, 60
KNOWN = {9: "\\t", 10: "\\n", 13: "\\r", 34: '\\"', 39: "\\'", 92: "\\\\"}


def escaped(data: bytes) -> str:
    return "".join(KNOWN.get(b) or (chr(b) if 32 <= b < 127 else f"\\x{b:02x}") for b in data)


def scope_of(failed: Failed) -> str:
    if failed.scope is Scope.CONNECTION:
        return "Connection"
    if failed.scope is Scope.SESSION:
        return f"Session {{ channel: {failed.channel} }}"
    return f"Link {{ channel: {failed.channel}, handle: {failed.handle} }}"


def receive(endpoint: Endpoint, channel: int, handle: int) -> None:
    message = endpoint.take(channel, handle)
    name = endpoint.link(channel, handle).name
    print(f"{escaped(name.encode())}: {len(message.body)} bytes, {escaped(message.body[:SHOWN])}")
    if not message.settled:
        endpoint.settle(channel, message.id)


def top_up(endpoint: Endpoint) -> None:
    """Credit and windows as crates/example_receive gives them."""
    for channel in range(PLACES):
        try:
            places = endpoint.window(channel)
        except AmqpError as refused:
            assert refused.code is Code.NO_SESSION
            continue
        if places <= WINDOW // 2:
            endpoint.widen(channel, WINDOW - places)
        for handle in range(PLACES):
            try:
                link = endpoint.link(channel, handle)
            except AmqpError as refused:
                assert refused.code is Code.NO_LINK
                continue
            opened = link.credit + link.opened
            if opened <= CREDIT // 2:
                endpoint.grant(channel, handle, CREDIT - opened)


def run(data: bytes, size: int) -> None:
    with Endpoint("receive") as endpoint:
        for at in range(0, len(data), size):
            for event in endpoint.feed(data[at : at + size]):
                if isinstance(event, Ready):
                    receive(endpoint, event.channel, event.handle)
                elif isinstance(event, Failed):
                    print(f"failed: {scope_of(event)}, {event.condition.symbol}")
                top_up(endpoint)
                endpoint.output()
            top_up(endpoint)
            endpoint.output()
        print("the end:", endpoint.finish().name.capitalize())


if __name__ == "__main__":
    with open(sys.argv[1], "rb") as file:
        data = file.read()
    run(data, int(sys.argv[2]) if len(sys.argv) > 2 else max(1, len(data)))
