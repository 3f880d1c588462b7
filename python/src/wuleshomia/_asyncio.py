"""A receiver for asyncio."""

from __future__ import annotations

import asyncio
from dataclasses import dataclass
from typing import Any, Callable

from ._endpoint import (
    AmqpError,
    Attached,
    Code,
    End,
    Endpoint,
    Error,
    Event,
    Link,
    Message,
    Outcome,
    Ready,
    _word,
)


@dataclass(frozen=True)
class Credit:
    """A link is taken, and topped up to `n` in place of the protocol's `credit`. With 0 it is granted nothing but by you."""

    n: int

    def __post_init__(self) -> None:
        _word(self.n, "n")


class Refuse(Error):
    """A link is refused, and its sender is told why."""


class Reject(Error):
    """A message is rejected, and its sender is told why."""


class ReceiverProtocol(asyncio.Protocol):
    """One connection, served by functions of yours::

        loop.create_server(lambda: ReceiverProtocol(Endpoint("gateway"), on_message, on_event, on_end), port=5672)

    `on_message(link, message)` returns what became of a message: an Outcome or a :class:`Reject`, or None if it is settled later, by
    :meth:`settle`. Of a message that its sender has settled nothing is told, whatever it returns. `on_attach(link)` is called before a link
    is granted anything, and returns None to take it, a :class:`Credit`, or a :class:`Refuse`. `on_event(event)` is told all else that came,
    also that a link which was refused attached. `on_end(end)` is called once, at the end. Links are topped up to `credit` and sessions to
    `window`. Nothing is read of a peer that does not read its answers.

    If `on_message` or `on_attach` raises, or returns what it may not or words that are not valid, the connection is closed, and the
    message is not settled. If memory for a frame is refused, it is closed too.

    `idle_time_out` is in seconds: a peer that is silent for so long is given up. With a `heartbeat`, in seconds, an empty frame is
    written each such time.
    """

    def __init__(
        self,
        endpoint: Endpoint,
        on_message: Callable[[Link, Message], Outcome | Reject | None],
        on_event: Callable[[Event], None] | None = None,
        on_end: Callable[[End], None] | None = None,
        *,
        on_attach: Callable[[Link], Credit | Refuse | None] | None = None,
        credit: int = 16,
        window: int = 2048,
        idle_time_out: float | None = None,
        heartbeat: float | None = None,
    ) -> None:
        self.endpoint = endpoint
        self._on_message = on_message
        self._on_event = on_event or (lambda event: None)
        self._on_end = on_end or (lambda end: None)
        self._on_attach = on_attach
        self._credit, self._window = credit, window
        self._credits: dict[tuple[int, int], int] = {}  # by channel and handle, of links that `on_attach` took
        self._idle, self._beat = idle_time_out, heartbeat
        self._transport: Any = None
        self._timers: dict[str, asyncio.TimerHandle] = {}

    def connection_made(self, transport: asyncio.BaseTransport) -> None:
        self._transport = transport
        self._wait("idle", self._idle, self._give_up)
        self._wait("beat", self._beat, self._tick)

    def data_received(self, data: bytes) -> None:
        self._wait("idle", self._idle, self._give_up)
        try:
            for event in self.endpoint.feed(data):
                self._follow(event)
        finally:
            self._flush()
        if self.endpoint.is_over:
            self._transport.close()

    def _follow(self, event: Event) -> None:
        if isinstance(event, Ready):
            self._receive(event.channel, event.handle)
            return
        if isinstance(event, Attached):
            self._greet(event.channel, event.handle)
        self._on_event(event)

    def _greet(self, channel: int, handle: int) -> None:
        if self._on_attach is not None:
            answer = self._on_attach(self.endpoint.link(channel, handle))
            if isinstance(answer, Refuse):
                self._credits.pop((channel, handle), None)
                self.endpoint.refuse(channel, handle, answer)
                return
            if not (answer is None or isinstance(answer, Credit)):
                raise TypeError(f"on_attach returns None, a Credit or a Refuse, not {type(answer).__name__}")
            self._credits[channel, handle] = self._credit if answer is None else answer.n
        self._top_up(channel, handle)

    def _receive(self, channel: int, handle: int) -> None:
        link = self.endpoint.link(channel, handle)
        message = self.endpoint.take(channel, handle)
        outcome = self._on_message(link, message)
        if outcome is not None and not message.settled:
            self._settle(channel, message.id, outcome)
        self._top_up(channel, handle)

    def _settle(self, channel: int, id: int, outcome: Outcome | Reject) -> None:
        if isinstance(outcome, Reject):
            self.endpoint.settle(channel, id, error=outcome)
        else:
            self.endpoint.settle(channel, id, outcome)

    def settle(self, channel: int, id: int, outcome: Outcome | Reject = Outcome.ACCEPTED) -> None:
        """Tells the sender what became of a message for which `on_message` returned None."""
        self._settle(channel, id, outcome)
        self._top_up(channel)
        self._flush()

    def _top_up(self, channel: int, handle: int | None = None) -> None:
        """Gives a session what it lacks, and the link at this handle, or all its links."""
        if self._on_attach is None:
            self.endpoint.top_up(channel, self._credit, self._window)
            return
        self.endpoint.top_up(channel, 0, self._window)
        for at in [at for at in self._credits if at[0] == channel] if handle is None else [(channel, handle)]:
            self._supply(at)

    def _supply(self, at: tuple[int, int]) -> None:
        """Tops a link up as :meth:`Endpoint.top_up` does, to its own credit."""
        credit = self._credits.get(at, 0)
        try:
            link = self.endpoint.link(*at)
        except AmqpError as refused:
            if refused.code is not Code.NO_LINK:
                raise
            self._credits.pop(at, None)  # it has ended
            return
        lack = min(credit, link.allowed - link.opened) - link.credit
        if link.credit <= credit // 2 and lack > 0:
            self.endpoint.grant(*at, lack)

    def _flush(self) -> None:
        if out := self.endpoint.output():
            self._transport.write(out)

    def pause_writing(self) -> None:
        self._transport.pause_reading()

    def resume_writing(self) -> None:
        self._transport.resume_reading()

    def connection_lost(self, exc: Exception | None) -> None:
        for timer in self._timers.values():
            timer.cancel()
        end = self.endpoint.finish()
        self.endpoint.free()
        self._on_end(end)

    # Time ----------------------------------------------------------------------------------------------------------------

    def _wait(self, name: str, seconds: float | None, then: Callable[[], None]) -> None:
        if seconds is None:
            return
        if name in self._timers:
            self._timers[name].cancel()
        self._timers[name] = asyncio.get_running_loop().call_later(seconds, then)

    def _give_up(self) -> None:
        """The peer was silent for too long: what is left is a close, and no waiting for its answer."""
        try:
            self.endpoint.close()
        except AmqpError as refused:
            if refused.code not in (Code.NOT_OPEN, Code.CONNECTION_OVER):
                raise
        self._flush()
        self._transport.close()

    def _tick(self) -> None:
        try:
            self.endpoint.heartbeat()
        except AmqpError as refused:
            if refused.code is not Code.NOT_OPEN:
                return
        self._flush()
        self._wait("beat", self._beat, self._tick)
