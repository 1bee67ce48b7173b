"""Damages sessions, frames, messages and bootstraps, at random but by their structure: a word of a line, a field of a
message in a message, a length of a frame, a member of a document; and now and then any byte."""

import json

import wire

NUMBERS = [0, 1, 2, 3, 4, 5, 16, 80, 100, 127, 128, 255, 1_024, 10_000, 65_535, 65_536, 1_000_000, 2 ** 31 - 1, 2 ** 31,
           2 ** 32 - 2, 2 ** 32 - 1, 2 ** 32, 2 ** 63, 2 ** 64 - 1]
TEXTS = [b"", b"*", b"*.example", b"svc.*", b"a*b", b"a(", b"a+", b"(a|b)*c", b"[[:alpha:]]{2,3}", b"(?i)A", b"10.0.0.1", b"::1",
         b"[::1]", b"a", b"c", b"svc", b"\xff\xfe", b"\xc3\xa9", b"xdstp:", b"xdstp://a.example/x/y?b=2&a=1", b"xdstp://a/b/%zz",
         b"a%20b", b"a,b=c|d", b"\n", b"/", b"/a", b":path", b"x" * 300]
BYTES = [0, 1, 2, 8, 10, 11, 13, 16, 18, 26, 32, 34, 37, 47, 48, 58, 64, 97, 120, 127, 128, 192, 255]
WORDS = [b"", b"0", b"00", b"01", b"x", b"d", b"c", b"-", b"-0", b"+", b"+x", b"+a.example", b"@5", b"@", b"@99", b"17", b"65535",
         b"65536", b"18446744073709551615", b"18446744073709551616", b"99999999999999999999999999", b"1000000000000",
         b"1000000000001", b"0g", b"aB", b"/", b"/x", b"x=%ff", b"x=%c3%a9", b"x=%zz", b"=x", b"X=1", b"a.-_9=", b"open", b"data",
         b"lost", b"time", b"endpoint", b"sweep", b"start", b"pick", b"commit", b"idle", b"ready", b"Ready", b"[::1]:80",
         b"::1:80", b"[FE80::a]:8080", b"10.0.0.1:0", b"10.0.0.1:80", b"10.0.0.01:80"]
LINES = [b"", b" ", b"d sweep", b"d sweep ", b"@4 d sweep", b"@5 d sweep", b"@7 @6 d sweep", b"@d d sweep",
         b"@18446744073709551616 d sweep", b"d open -", b"d open +", b"d lost -", b"d open +a.example", b"d lost +a.example",
         b"d time 0", b"d time 7", b"d time 20000", b"d time 900000", b"d time 1000000000000", b"d data -", b"d data - ",
         b"d data - 0", b"d data - 0G", b"d data - 00", b"d data - 0000000000", b"d data - 0100000000", b"d data - 00ffffffff",
         b"d data - 0000400001", b"d data - 0000000003088080", b"d endpoint 10.0.0.1:80 ready", b"d endpoint 10.0.0.1:80 failing",
         b"d endpoint 10.0.0.1 up", b"d endpoint [::1]:80 idle", b"d \xff", b"\xc3\xa9", b"c 1 start 7 0 /a", b"c 1 start 7 0 /x =",
         b"c 1 start 9 1 a x", b"c 0 start 60000 0 /x", b"c 1 start 7 0 /x" + b" a=b" * 64, b"c 1 start 8 0 /x" + b" a=b" * 65,
         b"c 2 start 8 9 /a x=1", b"c 1 pick 7 1", b"c 1 pick 1 2", b"c 1 commit 0", b"c 1 commit 7", b"c 2 commit 1",
         b"c 17 commit 3", b"c 01 commit 3", b"c 99999999999999999999999 commit 3", b"c x commit 70000"]
VALUES = [None, True, 0, -1, 1e308, "", "x", "ms:1", "xdstp://a.example/%s", "%s", [], [[]], [None], {}, {"server_uri": 1},
          {"a": {}}, {"": {}}]


def fields(data):
    """The fields of a message, each with its number, wire type and body; None where it isn't one."""
    out, at, size = [], 0, len(data)
    while at < size:
        tag, at = varint(data, at)
        if tag is None or tag < 8:
            return None
        kind = tag & 7
        if kind == 0:
            body, at = varint(data, at)
            if body is None:
                return None
        elif kind == 2:
            length, at = varint(data, at)
            if length is None or at + length > size:
                return None
            body, at = data[at:at + length], at + length
        elif kind in (1, 5) and at + (8 if kind == 1 else 4) <= size:
            length = 8 if kind == 1 else 4
            body, at = data[at:at + length], at + length
        else:
            return None
        out.append((tag >> 3, kind, body))
    return out


def varint(data, at):
    value = shift = 0
    while at < len(data) and shift < 64:
        byte = data[at]
        at += 1
        value |= (byte & 127) << shift
        if byte < 128:
            return value, at
        shift += 7
    return None, at


def spelled(members):
    """The bytes of fields."""
    out = []
    for number, kind, body in members:
        out.append(wire.varint(number << 3 | kind))
        if kind == 2:
            out.append(wire.varint(len(body)))
        out.append(wire.varint(body) if kind == 0 else body)
    return b"".join(out)


def with_word(r, line):
    """A line with another word, one more, one less, or one that is longer."""
    words = line.split(b" ")
    place, turn = r.randrange(len(words)), r.randrange(4)
    if turn == 0:
        words[place] = r.choice(WORDS)
    elif turn == 1:
        words.insert(place, r.choice(WORDS))
    elif turn == 2:
        del words[place]
    else:
        words[place] += r.choice(WORDS)
    return b" ".join(words)


class Damage:
    """Damage by the numbers of a random source, with other inputs of the same kind to take parts from."""

    def __init__(self, r, others=()):
        self.r, self.others = r, others

    def of_bytes(self, data):
        """With some bytes changed, left out, put in, doubled or taken from another input; or cut."""
        r, turn = self.r, self.r.randrange(8)
        at = r.randrange(len(data) + 1)
        if turn < 3:
            return data[:at] + bytes([r.choice(BYTES)]) + data[at + (turn > 0):]
        if turn == 3 and data:
            at = min(at, len(data) - 1)
            return data[:at] + bytes([data[at] ^ 1 << r.randrange(8)]) + data[at + 1:]
        until = min(len(data), at + r.choice([1, 2, 4, 16, 100]))
        if turn == 4:
            return data[:at] + data[until:]
        if turn == 5:
            return data[:at] + data[at:until] * r.choice([2, 2, 3, 20]) + data[until:]
        if turn == 6 and self.others:
            other = r.choice(self.others)
            return data[:at] + other[r.randrange(len(other) + 1):]
        return data[:at]

    def of_message(self, data):
        """With a field of the message, or of one in it, changed, left out, doubled, moved or put in."""
        r, members = self.r, fields(data)
        if not members or r.random() < 0.04:
            return self.of_bytes(data)
        at = r.randrange(len(members))
        number, kind, body = members[at]
        if kind == 2 and r.random() < 0.75:
            members[at] = number, 2, self.of_body(body)
            return spelled(members)
        turn = r.randrange(8)
        if turn == 0:
            del members[at]
        elif turn == 1:
            members.insert(r.randrange(len(members) + 1), members[at])
        elif turn == 2:
            members[at] = max(1, number + r.choice([-2, -1, 1, 2])), kind, body
        elif turn == 3:
            members.append(members.pop(at))
        elif turn == 4:
            members.insert(at, (r.choice([1, 2, 3, 15, 16, 2_047, 2 ** 29 - 1]), 0, r.choice(NUMBERS)))
        elif turn == 5 and kind == 2:
            members[at] = number, 0, r.choice(NUMBERS)
        elif kind == 0:
            members[at] = number, 0, r.choice(NUMBERS)
        else:
            members[at] = number, 2, r.choice(TEXTS)
        return spelled(members)

    def of_body(self, body):
        """A field's bytes: a message, or a text."""
        found = fields(body)
        if found and self.r.random() < 0.9:
            return self.of_message(body)
        if self.r.random() < 0.4:
            return self.r.choice(TEXTS)
        return self.of_bytes(body)

    def of_frames(self, data):
        """A frame, or several, whose flag or length is another, or that are cut, doubled or joined by others."""
        r, turn = self.r, self.r.randrange(10)
        if turn == 0 and len(data) >= 5:
            return bytes([r.choice([1, 2, 128, 255])]) + data[1:]
        if turn == 1 and len(data) >= 5:
            length = int.from_bytes(data[1:5], "big")
            return data[:1] + (max(0, length + r.choice([-1, 1, -5, 5, 65_536])) % 2 ** 32).to_bytes(4, "big") + data[5:]
        if turn == 2:
            return data + data
        if turn == 3:
            return data[:r.randrange(len(data) + 1)]
        if turn == 4:
            return wire.frame(b"") * r.choice([1, 3]) + data
        payload = data[5:]
        return wire.frame(self.of_message(payload) if turn < 9 else self.of_bytes(payload))

    def of_document(self, text):
        """A document of JSON, with a member changed, left out, put in or doubled; or with other bytes."""
        r = self.r
        try:
            document = json.loads(text)
        except ValueError:
            document = None
        if not isinstance(document, dict) or r.random() < 0.4:
            return self.of_bytes(text)
        place = document
        while isinstance(place, (dict, list)) and place and r.random() < 0.6:
            deeper = r.choice(list(place.values()) if isinstance(place, dict) else place)
            if not isinstance(deeper, (dict, list)):
                break
            place = deeper
        self.change(place)
        out = json.dumps(document, ensure_ascii=r.random() < 0.5).encode(errors="surrogatepass")
        return out.replace(b"}", b',"node":%s}' % json.dumps(r.choice(VALUES)).encode(), 1) if r.random() < 0.1 else out

    def change(self, place):
        """Changes a member of an object or an element of an array."""
        r, value = self.r, self.r.choice(VALUES)
        if isinstance(place, list):
            at = r.randrange(len(place) + 1)
            place[at:at + r.randrange(2)] = [value]
            return
        name = r.choice([*place, "node", "authorities", "xds_servers", "id", "locality", "server_uri", "x",
                         "client_default_listener_resource_name_template", "client_listener_resource_name_template"])
        if r.random() < 0.3:
            place.pop(name, None)
        else:
            place[name] = value

    def of_line(self, line):
        """A line with another word, one more or one less; or another byte; or, of a data line, other data."""
        r, words = self.r, line.split(b" ")
        if b"data" in words[:4] and r.random() < 0.8:
            return self.of_data(words)
        if r.random() < 0.3:
            return self.of_bytes(line)
        return with_word(r, line)

    def of_data(self, words):
        try:
            data = bytes.fromhex(words[-1].decode())
        except ValueError:
            return b" ".join(words)
        words[-1] = self.of_frames(data).hex().encode()
        return b" ".join(words)

    def of_session(self, text):
        """A session with one more kind of damage, mostly from line 5 on."""
        r, lines = self.r, text.split(b"\n")
        if len(lines) < 6:
            return self.of_bytes(text)
        turn = r.randrange(12)
        if turn == 0:
            word, _, rest = lines[1].partition(b" ")
            lines[1] = word + b" " + self.of_document(rest)
            return b"\n".join(lines)
        at = r.randrange(0 if turn == 1 else 4, len(lines))
        other = r.randrange(4, len(lines))
        if turn > 1 and r.random() < 0.5:
            at = r.choice([place for place, line in enumerate(lines) if b" data " in line] or [at])
        if turn < 7:
            lines[at] = self.of_line(lines[at])
        elif turn == 7:
            lines.insert(at, r.choice(LINES))
        elif turn == 8:
            lines[at], lines[other] = lines[other], lines[at]
        elif turn == 9:
            lines.insert(at, lines[other])
        elif turn == 10:
            del lines[at]
        else:
            return b"\n".join(self.cut_data(lines, at))
        return b"\n".join(lines)

    def cut_data(self, lines, at):
        """The lines with the data of one cut into two lines, or joined with those of the next one."""
        words = lines[at].split(b" ")
        if b"data" not in words[:4]:
            return lines
        middle = self.r.randrange(0, len(words[-1]) + 1, 2)
        first, rest = words[-1][:middle], words[-1][middle:]
        head = b" ".join(words[:-1])
        return lines[:at] + [head + b" " + first, b"d data - " + rest] + lines[at + 1:]
