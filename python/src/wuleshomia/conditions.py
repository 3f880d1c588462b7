"""The conditions that the standard names [2.8.15 to 2.8.18]: what an :class:`Error` may say. Others are an application's own."""

from __future__ import annotations

#: An internal error.
INTERNAL_ERROR = "amqp:internal-error"
#: What was asked for does not exist.
NOT_FOUND = "amqp:not-found"
#: The peer may not use what it asked for.
UNAUTHORIZED_ACCESS = "amqp:unauthorized-access"
#: Data could not be decoded.
DECODE_ERROR = "amqp:decode-error"
#: The peer exceeded what it was allocated.
RESOURCE_LIMIT_EXCEEDED = "amqp:resource-limit-exceeded"
#: The peer used something in a way that is not allowed.
NOT_ALLOWED = "amqp:not-allowed"
#: A field has a value that it must not have.
INVALID_FIELD = "amqp:invalid-field"
#: What was asked for is not implemented.
NOT_IMPLEMENTED = "amqp:not-implemented"
#: Another uses what was asked for.
RESOURCE_LOCKED = "amqp:resource-locked"
#: A precondition was not met.
PRECONDITION_FAILED = "amqp:precondition-failed"
#: What the peer used was deleted.
RESOURCE_DELETED = "amqp:resource-deleted"
#: A frame came that the state of the session does not allow.
ILLEGAL_STATE = "amqp:illegal-state"
#: The peer's frames are too small for what is to be sent.
FRAME_SIZE_TOO_SMALL = "amqp:frame-size-too-small"

#: An operator closes the connection.
CONNECTION_FORCED = "amqp:connection:forced"
#: A malformed frame came.
FRAMING_ERROR = "amqp:connection:framing-error"
#: What the connection is for is to be found elsewhere.
CONNECTION_REDIRECT = "amqp:connection:redirect"

#: The peer sent more transfers than the window allows.
WINDOW_VIOLATION = "amqp:session:window-violation"
#: Input came for a link that was detached with an error.
ERRANT_LINK = "amqp:session:errant-link"
#: A link attaches at a handle that is in use.
HANDLE_IN_USE = "amqp:session:handle-in-use"
#: A frame came for a handle that is not in use.
UNATTACHED_HANDLE = "amqp:session:unattached-handle"

#: An operator detaches the link.
DETACH_FORCED = "amqp:link:detach-forced"
#: The peer sent more messages than the credit allows.
TRANSFER_LIMIT_EXCEEDED = "amqp:link:transfer-limit-exceeded"
#: A message is longer than the link allows.
MESSAGE_SIZE_EXCEEDED = "amqp:link:message-size-exceeded"
#: What the link is for is to be found elsewhere.
LINK_REDIRECT = "amqp:link:redirect"
#: Another attached the link.
STOLEN = "amqp:link:stolen"
