"""The gRPC messages in a captured HTTP/2 connection (RFC 9113): the bytes that one side sent, from the connection's beginning."""

PREFACE = b"PRI * HTTP/2.0\r\n\r\nSM\r\n\r\n"
HEAD, GRPC_HEAD = 9, 5
DATA, RST_STREAM, SETTINGS = 0, 3, 4
PADDED = 8


class Stream:
    """The bytes of a stream that are in no complete message yet, and the place of the frame in which they begin."""

    def __init__(self):
        self.rest, self.begun = bytearray(), 0

    def take(self, content, place):
        """Takes the content of a DATA frame at a place; the messages that are complete with it."""
        if not self.rest:
            self.begun = place
        self.rest += content
        payloads = []
        while len(self.rest) >= GRPC_HEAD and not self.rest[0]:
            end = GRPC_HEAD + int.from_bytes(self.rest[1:GRPC_HEAD], "big")
            if end > len(self.rest):
                break
            payloads.append(bytes(self.rest[GRPC_HEAD:end]))
            del self.rest[:end]
            self.begun = place
        return payloads


def cut(data):
    """The messages, each with its stream, in the order in which their last bytes came; and the place up to which all frames and
    messages are complete. A client's preface is skipped, and then the first frame has SETTINGS. Of the others those with DATA are
    read; RST_STREAM drops what its stream has begun, and a compressed message is never complete."""
    begin = at = len(PREFACE) if data.startswith(PREFACE) else 0
    streams, messages = {}, []
    while at + HEAD <= len(data):
        end = at + HEAD + int.from_bytes(data[at:at + 3], "big")
        kind, flags = data[at + 3], data[at + 4]
        number = int.from_bytes(data[at + 5:at + HEAD], "big") & 0x7FFF_FFFF
        if end > len(data) or at == begin and (kind, number) != (SETTINGS, 0):
            break
        if kind == DATA:
            body = content(data[at + HEAD:end], flags)
            if body is None or not number:
                break
            messages += ((number, payload) for payload in streams.setdefault(number, Stream()).take(body, at))
        elif kind == RST_STREAM:
            streams.pop(number, None)
        at = end
    return messages, min([at, *(stream.begun for stream in streams.values() if stream.rest)])


def content(body, flags):
    """What a DATA frame has without its padding; None where the padding is longer than the frame."""
    if not flags & PADDED:
        return body
    if not body or body[0] >= len(body):
        return None
    return body[1:len(body) - body[0]]
