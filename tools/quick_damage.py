"""Damages messages by the thousand. The places of a message's fields, of those in its messages too, are found once; then
each damaged message takes a few microseconds, where tools/mutation.py reads the message anew.

Each change is of one field: it is left out, doubled, moved, cut, or has other bytes, another number or another length. The
lengths of the fields around it are set right, so that what is read next stays as it was, but where the wrong length is the
damage. Several changes of one message come from seeds that tools/mutation.py damaged before.
"""

import typing

import mutation
import wire

LENGTHS = [wire.varint(size) for size in range(4_096)]
NUMBERS = [wire.varint(number) for number in mutation.NUMBERS] + [b"\x80", b"\x80\x00", b"\xff" * 9 + b"\x7f", b"\xff" * 10]
TEXTS = [LENGTHS[len(text)] + text for text in mutation.TEXTS]
TAGS = [wire.varint(number << 3 | kind) for number in [*range(1, 21), 26, 32, 38, 43, 2 ** 29 - 1] for kind in (0, 1, 2, 5)]
TAGS += [b"\x00", b"\x0b", b"\x0c", b"\x0e", b"\x80\x01", b"\x8a\x00", b"\xff\xff\xff\xff\x7f"]


class Place(typing.NamedTuple):
    """Where a field stands in a message: its tag, its length (its body, where it has none), its body and its end; its wire
    type; and the length, body and end of each field around its body, and of each outside of it, the innermost first."""

    tag: int
    length: int
    body: int
    end: int
    kind: int
    around: tuple
    outside: tuple


def length_of(size):
    """The varint of a length."""
    return LENGTHS[size] if size < len(LENGTHS) else wire.varint(size)


def places_of(data, start, end, around=()):
    """The places of the fields of a message that stands there, each with those in it; None where no message does."""
    found, at = [], start
    while at < end:
        place = place_at(data, at, end, around)
        if place is None:
            return None
        found.append(place)
        if place.kind == 2:
            found += places_of(data, place.body, place.end, place.around) or []
        at = place.end
    return found


def place_at(data, at, end, around):
    """The place of the field that begins there, or None."""
    tag, length = mutation.varint(data, at)
    if tag is None or tag < 8:
        return None
    kind, body, outside = tag & 7, length, around
    if kind == 0:
        value, until = mutation.varint(data, length)
        if value is None:
            return None
    elif kind == 2:
        size, body = mutation.varint(data, length)
        if size is None:
            return None
        until = body + size
        around = ((length, body, until), *around)
    elif kind in (1, 5):
        until = length + (8 if kind == 1 else 4)
    else:
        return None
    return Place(at, length, body, until, kind, around, outside) if until <= end else None


def spliced(data, at, until, new, around):
    """The data with other bytes there, and with the lengths of these fields around them set right."""
    for length, body, end in around:
        new = data[body:at] + new + data[until:end]
        new = length_of(len(new)) + new
        at, until = length, end
    return data[:at] + new + data[until:]


def without(data, place, _):
    return spliced(data, place.tag, place.end, b"", place.outside)


def doubled(data, place, _):
    return spliced(data, place.end, place.end, data[place.tag:place.end], place.outside)


def with_tag(data, place, n):
    return spliced(data, place.tag, place.length, TAGS[n % len(TAGS)], place.outside)


def with_field(data, place, n):
    """With one field more."""
    rest, n = divmod(n, len(TAGS))
    value = NUMBERS[rest % len(NUMBERS)] if rest & 64 else TEXTS[rest % len(TEXTS)]
    return spliced(data, place.tag, place.tag, TAGS[n] + value, place.outside)


def with_value(data, place, n):
    """With another number, or another text."""
    if place.kind == 2:
        return spliced(data, place.length, place.end, TEXTS[n % len(TEXTS)], place.outside)
    return spliced(data, place.body, place.end, NUMBERS[n % len(NUMBERS)], place.around)


def with_length(data, place, n):
    """With another length of this field alone."""
    if place.kind != 2:
        return with_value(data, place, n)
    size = place.end - place.body + (-1, 1, -2, 2, 5, 100, 4_096, 2 ** 31)[n & 7]
    return spliced(data, place.length, place.body, length_of(max(0, size)), place.outside)


def with_bit(data, place, n):
    """With one bit of the body changed."""
    at = place.body + (n >> 3) % max(1, place.end - place.body)
    if at >= place.end:
        return with_byte(data, place, n)
    return spliced(data, at, at + 1, bytes((data[at] ^ 1 << (n & 7),)), place.around)


def with_byte(data, place, n):
    """With one byte more in the body, or another one."""
    at = place.body + (n >> 9) % (place.end - place.body + 1)
    until = min(place.end, at + (n & 1))
    return spliced(data, at, until, bytes((n >> 1 & 255,)), place.around)


def cut_body(data, place, n):
    """With a part of the body alone."""
    at = place.body + n % max(1, place.end - place.body)
    return spliced(data, at, place.end, b"", place.around)


def without_byte(data, place, n):
    at = place.body + n % max(1, place.end - place.body)
    return spliced(data, at, min(at + 1, place.end), b"", place.around)


def moved(data, place, n):
    """With the field behind all others of its message, or before them."""
    outside = place.outside
    field, (start, end) = data[place.tag:place.end], outside[0][1:] if outside else (0, len(data))
    rest = data[start:place.tag] + data[place.end:end]
    return spliced(data, start, end, rest + field if n & 1 else field + rest, outside)


def cut(data, place, n):
    """Cut off in this field, with all lengths as they were."""
    return data[:place.tag + n % max(1, place.end - place.tag)]


CHANGES = [without, doubled, with_tag, with_tag, with_field, with_value, with_value, with_value, with_length, with_bit,
           with_bit, with_byte, cut_body, without_byte, moved, cut]


class Seed:
    """A message of which damaged ones are made."""

    def __init__(self, data):
        self.data, self.places = data, places_of(data, 0, len(data)) or [Place(0, 0, 0, len(data), 0, (), ())]

    def damaged(self, n):
        """The message with the change of a random number of 64 bits."""
        n, turn = divmod(n, len(CHANGES))
        n, at = divmod(n, len(self.places))
        return CHANGES[turn](self.data, self.places[at], n)
