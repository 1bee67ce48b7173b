"""tests/compare_resources.py SHOW [REFERENCE [COUNT]]: compares the check of resources with recorded answers, and with a
reference program.

SHOW is the program probe_resource. It checks the 300 resources of the corpus. REFERENCE is the folder of a reference,
which has a check of resources and makes random sessions: COUNT resources (5,000 if none is given) are checked by both,
those of the sessions' responses, most of them with a field or some bytes changed, or checked as one of another kind.
Each answer is the same name and value, or the same name and reason. The resources are the same at each run.
"""

import pathlib
import random
import re
import subprocess
import sys

HERE = pathlib.Path(__file__).resolve().parent
sys.path[:0] = [str(HERE.parent / "tools"), str(HERE)]
import corpus  # noqa: E402
import wire  # noqa: E402
from reference import Reference  # noqa: E402

KINDS = ["listener", "route", "cluster", "endpoint"]


def resources(reference):
    """Resources of random sessions, each with its kind, type URL and value."""
    seen = set()
    for seed in range(1, 1_000_000):
        for line in reference.fuzz(seed).split(b"\n"):
            words = line.split(b" ")
            if b"data" not in words:
                continue
            for found in in_frames(reference, words[-1]):
                if found not in seen:
                    seen.add(found)
                    yield found


def in_frames(reference, digits):
    try:
        data = bytes.fromhex(digits.decode())
    except (UnicodeDecodeError, ValueError):
        return
    while len(data) >= 5:
        length = int.from_bytes(data[1:5], "big")
        payload, data = data[5:5 + length], data[5 + length:]
        try:
            response = reference.read("DiscoveryResponse", payload)
        except reference.Unreadable:
            return
        if response["type_url"] in reference.URLS:
            kind = reference.URLS.index(response["type_url"])
            for resource in response["resources"]:
                yield kind, resource["type_url"], resource["value"]


def with_bytes(r, value):
    """With one to three bytes changed, left out or put in."""
    for _ in range(r.randint(1, 3)):
        at = r.randrange(len(value) + 1)
        value = value[:at] + bytes([r.choice([0, 1, 2, 8, 10, 16, 18, 26, 34, 47, 97, 127, 128, 255])]) + value[at + r.randrange(2):]
    return value


def fields(value):
    """The fields of a message, each with its number and a number or bytes; none where it has other wire types."""
    out, at = [], 0
    try:
        while at < len(value):
            tag, at = varint(value, at)
            body, at = varint(value, at)
            if tag & 7 == 2 and at + body <= len(value):
                out.append((tag >> 3, value[at:at + body]))
                at += body
            elif tag & 7 == 0:
                out.append((tag >> 3, body))
            else:
                return []
    except IndexError:
        return []
    return out


def varint(value, at):
    n = shift = 0
    while value[at] > 127:
        n |= (value[at] & 127) << shift
        at, shift = at + 1, shift + 7
    return n | value[at] << shift, at + 1


def with_field(r, value):
    """With one field changed, left out, doubled or moved, in the message or in one within it."""
    members = fields(value)
    if not members:
        return value
    at = r.randrange(len(members))
    number, body = members[at]
    inner = isinstance(body, bytes) and fields(body)
    if inner and r.random() < 0.8:
        members[at] = number, with_field(r, body)
    elif r.random() < 0.25:
        del members[at]
    elif r.random() < 0.25:
        members.insert(r.randrange(len(members) + 1), members[at])
    elif r.random() < 0.2:
        members[at] = max(1, number + r.choice([-2, -1, 1, 2])), body
    elif isinstance(body, int):
        members[at] = number, r.choice([0, 1, 2, 3, 4, 5, 100, 65_535, 65_536, 4_294_967_294, 4_294_967_295])
    else:
        members[at] = number, r.choice([b"", b"*", b"a*b", b"a(", b"10.0.0.1", b"::1", b"a", b"xdstp://a/b/c?z=1&y=2", b"web"])
    return b"".join(wire.delimited(n, b) if isinstance(b, bytes) else wire.number(n, b) for n, b in members)


def some_resources(reference, count):
    r = random.Random(1)
    for place, (kind, url, value) in zip(range(count), resources(reference)):
        turn = r.randrange(24)
        if turn == 0:
            kind = r.randrange(4)
        elif turn == 1:
            value = value[:r.randrange(len(value) + 1)]
        elif turn == 2:
            value = with_bytes(r, value)
        elif turn < 17:
            for _ in range(r.randint(1, 2)):
                value = with_field(r, value)
        yield kind, url, value


# ---- values, as the program shows them, without the quotes' escapes


def listed(texts):
    return "[" + ", ".join(texts) + "]"


def some(text):
    return "None" if text is None else f"Some({text})"


def quoted(text):
    return f'"{text}"'


def truth(b):
    return "true" if b else "false"


def fraction(f):
    return f"Fraction {{ n: {f[0]}, of: {f[1]} }}"


def camel(word):
    return "".join(part.capitalize() for part in word.split("-"))


def header_test(test):
    kind, *of = test
    if kind == "range":
        return f"Range {{ start: {of[0]}, end: {of[1]} }}"
    if kind == "present":
        return f"Present({truth(of[0])})"
    if kind == "nocase":
        return f"NoCase({of[0][0].capitalize()}({quoted(of[0][1])}))"
    return f"{kind.capitalize()}({quoted(of[0])})"


def header(rule):
    name, test, invert = rule
    return f"HeaderRule {{ name: {quoted(name)}, test: {header_test(test)}, invert: {truth(invert)} }}"


def path_test(path):
    if path[0] == "pattern":
        return f"Pattern({quoted(path[1])})"
    return f"{path[0].capitalize()} {{ text: {quoted(path[1])}, case: {truth(path[2])} }}"


def action(a):
    if a[0] == "nothing":
        return "Nothing"
    return "To(" + listed(f"Weighted {{ cluster: {quoted(c)}, weight: {w} }}" for c, w in a[1]) + ")"


def route(r):
    place, path, headers, part, act = r
    share = some(fraction(part) if part else None)
    return (f"Route {{ place: {place}, path: {path_test(path)}, headers: {listed(map(header, headers))}, "
            f"fraction: {share}, action: {action(act)} }}")


def host(h):
    name, domains, routes = h
    return f"Host {{ name: {quoted(name)}, domains: {listed(map(quoted, domains))}, routes: {listed(map(route, routes))} }}"


def routes(value):
    return f"RouteValue {{ name: {quoted(value[1])}, hosts: {listed(map(host, value[2]))} }}"


def listener(value):
    how, of = value[2]
    source = f"Named({quoted(of)})" if how == "named" else f"Inline({routes(of)})"
    return f"ListenerValue {{ name: {quoted(value[1])}, routes: {source} }}"


def cluster(value):
    how, of, *_ = value[2]
    shape = f"Eds {{ service: {quoted(of)} }}" if how == "eds" else f"Aggregate {{ clusters: {listed(map(quoted, of))} }}"
    return f"ClusterValue {{ name: {quoted(value[1])}, shape: {shape} }}"


def locality(l):
    (region, zone, sub_zone), priority, weight, addresses = l
    place = f"LocalityId {{ region: {quoted(region)}, zone: {quoted(zone)}, sub_zone: {quoted(sub_zone)} }}"
    shown = listed(f"Address {{ text: {quoted(a)} }}" for a in addresses)
    return f"Locality {{ id: {place}, priority: {priority}, weight: {weight}, addresses: {shown} }}"


def drop(rule):
    category, part = rule
    return f"DropRule {{ category: {quoted(category)}, fraction: {fraction(part)} }}"


def endpoints(value):
    _, name, localities, drops = value
    return f"EndpointValue {{ name: {quoted(name)}, localities: {listed(map(locality, localities))}, drops: {listed(map(drop, drops))} }}"


def expected(answer):
    """What the program shows of this answer of the reference."""
    if answer[0] != "ok":
        name = some(None if answer[1] is None else quoted(answer[1]))
        return f"Err(Refused {{ name: {name}, reason: {camel(answer[2])} }})"
    _, name, value = answer
    variant, write = {"listener": ("Listener", listener), "routes": ("Route", routes), "cluster": ("Cluster", cluster),
                      "endpoints": ("Endpoint", endpoints)}[value[0]]
    return f"Ok(Checked {{ name: {quoted(name)}, value: {variant}({write(value)}) }})"


ESCAPES = {"n": "\n", "r": "\r", "t": "\t", "0": "\0"}


def unescaped(text):
    """The program's text without the escapes of quoted texts."""
    def one(match):
        code, letter = match.groups()
        return chr(int(code, 16)) if code else ESCAPES.get(letter, letter)
    return re.sub(r"\\(?:u\{([0-9a-f]+)\}|(.))", one, text)


def answer_of(reference, kind, url, value):
    """What the program shows of a resource by the reference."""
    return expected(reference.check(kind, (url, value), reference.Asked(), 16))


def shown_by(show, given):
    """What the program shows of these resources."""
    lines = "".join(f"{KINDS[kind]} {url.encode().hex()} {value.hex()}\n" for kind, url, value in given)
    ran = subprocess.run([show, "show"], input=lines.encode(), capture_output=True, timeout=600, check=False)
    if ran.returncode:
        raise SystemExit(f"{show}: {ran.stderr.decode(errors='replace')}")
    return [unescaped(line) for line in ran.stdout.decode().split("\n")]


def compare(what, show, given, wanted):
    """Compares what the program shows with what is wanted; the first that differs ends the run."""
    for place, ((kind, url, value), got, answer) in enumerate(zip(given, shown_by(show, given), wanted)):
        if got != answer:
            raise SystemExit(f"{what} {place}: {KINDS[kind]} {url} {value.hex()}\nthe program: {got}\nwanted: {answer}")
    refused = sum(answer.startswith("Err") for answer in wanted)
    print(f"{len(given):,} of {len(given):,} {what}s agree, of which {refused:,} are refused")


def main():
    show, *rest = sys.argv[1:]
    rows = list(corpus.read("resources"))
    compare("recorded resource", show, [(row["kind"], row["url"], row["value"]) for row in rows], [row["answer"] for row in rows])
    if rest:
        reference, count = Reference(rest[0]), int(rest[1]) if len(rest) > 1 else 5_000
        given = list(some_resources(reference, count))
        compare("resource", show, given, [answer_of(reference, *one) for one in given])


if __name__ == "__main__":
    main()
