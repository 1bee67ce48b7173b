"""From recorded responses to data lines."""

from describing import http2
from describing.messages import fields, varint
from describing.places import Problem

FRAMINGS = ("http2", "grpc", "length4", "varint", "single")


def data_lines(authority, data, framing=None):
    """The data lines of recorded responses, one for each. Without a framing it is the first that fits the bytes: what a server
    sent on a connection of HTTP/2, gRPC frames, four bytes of length (the high one first), a varint of length, or one response
    alone."""
    if not data:
        raise Problem((), "there are no bytes")
    nearest, near = 0, framing
    for name in [framing] if framing else FRAMINGS:
        payloads, end = cut(name, data)
        fits = framing or all(map(is_response, payloads))
        if fits and payloads and end == len(data):
            return [f"d data {authority} {frame(payload).hex()}" for payload in payloads]
        if fits and end > nearest:
            nearest, near = end, name
    if near and nearest == len(data):
        raise Problem((), f"there are no responses in the framing {near}")
    if near:
        raise Problem((), f"from byte {nearest} on no complete message follows in the framing {near}")
    raise Problem((), "these aren't responses in any of the framings " + ", ".join(FRAMINGS))


def frame(payload):
    """The gRPC frame of a payload."""
    return b"\0" + len(payload).to_bytes(4, "big") + payload


def cut(framing, data):
    """The payloads that the bytes begin with in a framing, and the place after them. Of HTTP/2 it is those of streams that have a
    response, since load reports may go over the same connection."""
    if framing == "http2":
        messages, end = http2.cut(data)
        streams = {stream for stream, payload in messages if is_response(payload)}
        return [payload for stream, payload in messages if stream in streams], end
    payloads, at = [], 0
    while at < len(data):
        try:
            begun, size = head(framing, data, at)
        except ValueError:
            break
        if begun + size > len(data):
            break
        payloads.append(data[begun:begun + size])
        at = begun + size
    return payloads, at


def head(framing, data, at):
    """Where a message begins whose framing stands at a place, and its size."""
    if framing == "single":
        return at, len(data) - at
    if framing == "varint":
        size, begun = varint(data, at)
        return begun, size
    begun = at + (5 if framing == "grpc" else 4)
    if begun > len(data) or framing == "grpc" and data[at]:
        raise ValueError("no frame")
    return begun, int.from_bytes(data[begun - 4:begun], "big")


def is_response(payload):
    """Whether some bytes look like a DiscoveryResponse: fields that can be read, with a type URL, and without the names that a
    request has in field 3."""
    try:
        texts = [(number, body) for number, kind, body, _ in fields(payload) if kind == 2]
    except ValueError:
        return False
    urls = [body for number, body in texts if number == 4]
    return bool(urls) and b"/" in urls[-1] and all(number != 3 for number, _ in texts)
