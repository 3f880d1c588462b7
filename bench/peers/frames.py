"""A peer that sends, by bytes: the frames of AMQP 1.0 that scripts here need, each written out."""
import socket

HEADER = b"AMQP\0\1\0\0"


def frame(channel, performative, fields, payload=b""):
    """A frame [2.3] with a performative of these encoded fields [2.7]."""
    body = b"\0\x53" + bytes([performative]) + b"\xd0" + (len(b"".join(fields)) + 4).to_bytes(4, "big")
    body += len(fields).to_bytes(4, "big") + b"".join(fields) + payload
    return (8 + len(body)).to_bytes(4, "big") + b"\2\0" + channel.to_bytes(2, "big") + body


def text(word):
    return b"\xa1" + bytes([len(word)]) + word


def number(value):
    return b"\x70" + value.to_bytes(4, "big")


def terminus(descriptor, address=None):
    """A source or a target, with an address if one is given."""
    fields = b"\x45" if address is None else b"\xc0" + bytes([len(address) + 3]) + b"\1" + text(address)
    return b"\0\x53" + bytes([descriptor]) + fields


NULL, TRUE, FALSE = b"\x40", b"\x41", b"\x42"


def opening(container, idle=None):
    """The header and an open by this container-id, which asks for a frame at least each so many milliseconds."""
    return HEADER + frame(0, 0x10, [text(container)] + ([NULL, NULL, NULL, number(idle)] if idle else []))


OPEN = opening(b"peer")
CLOSE = frame(0, 0x18, [])


def begin(channel):
    return frame(channel, 0x11, [NULL, number(0), number(2048), number(2048)])


def attach(channel, handle, name, address=None):
    """A sending link to an address, from the delivery-count 0."""
    target = terminus(0x29, address)
    return frame(channel, 0x12, [text(name), number(handle), FALSE, NULL, NULL, terminus(0x28), target, NULL, NULL, number(0)])


def flow(channel, sent):
    """Of the session, with echo, behind so many transfers."""
    fields = [number(0), number(2048), number(sent), number(2048), NULL, NULL, NULL, NULL, NULL, TRUE]
    return frame(channel, 0x13, fields)


def transfer(channel, handle, delivery, message, aborted=False):
    fields = [number(handle), number(delivery), b"\xa0\4" + delivery.to_bytes(4, "big"), number(0), FALSE]
    fields += [FALSE, NULL, NULL, NULL, TRUE] if aborted else []
    return frame(channel, 0x14, fields, b"" if aborted else b"\0\x53\x75\xb0" + len(message).to_bytes(4, "big") + message)


def detach(channel, handle):
    return frame(channel, 0x16, [number(handle), TRUE])


def end(channel):
    return frame(channel, 0x17, [])


WIDTHS = {4: 0, 5: 1, 6: 2, 7: 4, 8: 8, 9: 16}


def value_at(come, at):
    """The value at a place, and where the next one begins. A number is that, and a described value its descriptor and the value; of any
    other it is the content, with the count of one that has items."""
    code = come[at]
    if code == 0:
        descriptor, at = value_at(come, at + 1)
        value, at = value_at(come, at)
        return (descriptor, value), at
    if code >> 4 in WIDTHS:
        end = at + 1 + WIDTHS[code >> 4]
        return True if code == 0x41 else None if code == 0x40 else int.from_bytes(come[at + 1 : end], "big"), end
    begin = at + (5 if code >> 4 in (0xB, 0xD, 0xF) else 2)
    end = begin + int.from_bytes(come[at + 1 : begin], "big")
    return come[begin:end], end


def fields_of(come, at):
    """The fields of the performative that begins at a place."""
    code = come[at + 3]
    if code == 0x45:
        return []
    wide = 1 if code == 0xC0 else 4
    size, count = at + 4, at + 4 + wide
    end = count + int.from_bytes(come[size:count], "big")
    at, found = count + wide, []
    while at < end:
        value, at = value_at(come, at)
        found.append(value)
    return found


def connect(port):
    peer = socket.create_connection(("127.0.0.1", port))
    peer.setsockopt(socket.IPPROTO_TCP, socket.TCP_NODELAY, 1)
    return peer
