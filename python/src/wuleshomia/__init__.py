"""The receiving side of AMQP 1.0, proved, without I/O.

An :class:`Endpoint` is one connection. Bytes of the peer go in by :meth:`Endpoint.feed`, which yields events; messages come
out by :meth:`Endpoint.take`; :meth:`Endpoint.output` has the bytes for the peer. Sockets, TLS, time and the event loop are
yours::

    endpoint = Endpoint("gateway")
    for event in endpoint.feed(data):
        match event:
            case Attached(channel, handle):
                endpoint.grant(channel, handle, 16)
            case Ready(channel, handle):
                message = endpoint.take(channel, handle)
                endpoint.settle(channel, message.id)
    transport.write(endpoint.output())

:class:`ReceiverProtocol` does this for asyncio, with functions of yours.

A link or a message is refused, or the connection closed, with an :class:`Error` of your own words; :mod:`wuleshomia.conditions` has the
conditions of the standard.

A :class:`Spool` has the records that `amqp gateway --spool` keeps, for a program beside it.

What a peer can make an endpoint hold is bounded, and that is proved; ``wuleshomia.h`` says how far. This package itself is
tested, and not proved.
"""

from __future__ import annotations

from . import conditions
from ._endpoint import (
    Aborted,
    AddressKind,
    AmqpError,
    Attached,
    Begun,
    Closed,
    Code,
    Condition,
    Detached,
    Drained,
    End,
    Ended,
    Endpoint,
    Error,
    Event,
    Failed,
    Limit,
    Link,
    Message,
    Opened,
    Outcome,
    Ready,
    Receipt,
    Record,
    Scope,
    Settled,
    StarvedError,
    Step,
    Unfinished,
)
from ._asyncio import Credit, ReceiverProtocol, Refuse, Reject
from ._spool import (
    Gap,
    Locked,
    NoConsumer,
    OtherSpool,
    Spool,
    SpoolDamaged,
    SpoolError,
    SpoolRecord,
    TargetKind,
)

__all__ = [
    "Aborted",
    "AddressKind",
    "AmqpError",
    "Attached",
    "Begun",
    "Closed",
    "Code",
    "Condition",
    "Credit",
    "Detached",
    "Drained",
    "End",
    "Ended",
    "Endpoint",
    "Error",
    "Event",
    "Failed",
    "Gap",
    "Limit",
    "Link",
    "Locked",
    "Message",
    "NoConsumer",
    "Opened",
    "OtherSpool",
    "Outcome",
    "Ready",
    "Receipt",
    "ReceiverProtocol",
    "Record",
    "Refuse",
    "Reject",
    "Scope",
    "Settled",
    "Spool",
    "SpoolDamaged",
    "SpoolError",
    "SpoolRecord",
    "StarvedError",
    "Step",
    "TargetKind",
    "Unfinished",
    "conditions",
]

__version__ = "0.1.0"
