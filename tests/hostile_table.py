"""tests/hostile_table.py PROGRAM: sessions that a hostile server or a broken source could make, each with its answer.

PROGRAM is the name of a program of this repository that plays sessions. What is wanted is the end, and lines that stand
in the report one after another.
"""

import pathlib
import sys

HERE = pathlib.Path(__file__).resolve().parent
sys.path.insert(0, str(HERE.parent / "tools"))
import hostile_sessions  # noqa: E402
import player  # noqa: E402
import wire  # noqa: E402

Session = hostile_sessions.Session


def opened():
    session = Session()
    session.add("d open -")
    return session


def of_lines(session, *lines):
    session.add(*lines)
    return session.text()


def empty_response():
    return of_lines(opened(), "d data - 0000000000"), "done", ["d response - ignored wait listener:svc", "d bytes - ok wait listener:svc"]


def unreadable_response():
    text = of_lines(opened(), "d data - 0000000003088080", "d data - 00")
    return text, "done", ["d response - unreadable wait listener:svc", "d bytes - ended wait listener:svc",
                          "d bytes - closed wait listener:svc"]


def naming(count):
    session = opened()
    session.responses(wire.LISTENER, hostile_sessions.routes_to(*hostile_sessions.short_names(count)))
    return session.text()


def clusters_1024():
    return naming(1_024), "done", ["d response - ack listener wait cluster:0"]


def clusters_1025():
    return naming(1_025), "done", ["d response - nack listener whole",
                                   "  req - listener v= n=n5 names=svc err=svc:%20many-clusters",
                                   "  snap 1 front=!many-clusters"]


def cluster_twice():
    session = opened()
    session.responses(wire.LISTENER, hostile_sessions.routes_to("a"))
    session.responses(wire.CLUSTER, wire.eds_cluster("a"), wire.aggregate("a", ["b"]))
    return session.text(), "done", ["d response - nack cluster wait endpoint:a",
                                    "  req - cluster v= n=n6 names=a err=a:%20second"]


def diamond(levels):
    """An aggregate `g`, levels of two aggregates whose children are both of the next level, and a last one of EDS clusters."""
    session = opened()
    session.responses(wire.LISTENER, hostile_sessions.routes_to("g"))
    found = [wire.aggregate("g", ["l2", "r2"])]
    for level in range(2, levels):
        session.responses(wire.CLUSTER, *found, version=str(level))
        found += [wire.aggregate(f"{side}{level}", [f"l{level + 1}", f"r{level + 1}"]) for side in "lr"]
    session.responses(wire.CLUSTER, *found, version=str(levels))
    found += [wire.eds_cluster(f"{side}{levels}") for side in "lr"]
    session.responses(wire.CLUSTER, *found, version=str(levels + 1))
    session.responses(wire.ENDPOINT, *(wire.assignment(f"{side}{levels}", []) for side in "lr"))
    return session.text()


def diamond_of_16_levels():
    return diamond(16), "done", ["  snap 1 front=svc,r,0 g=l16/0:failing,*r16/0:failing"]


def diamond_of_17_levels():
    return diamond(17), "done", ["  snap 1 front=svc,r,0 g=!depth"]


def cuts():
    """The session first_path, cut off in its line 6: a word is missing, or the hexadecimal text is empty or odd."""
    text = (HERE.parent / "examples/first_path.session").read_bytes()
    lines = text.split(b"\n")
    before, line = b"".join(it + b"\n" for it in lines[:5]), lines[5]
    head = len(b"d data - ")
    for length in [*range(1, head + 8), len(line) - 1, len(line)]:
        cause = "word" if length < head - 1 or line[:length].endswith(b"-") else "hex"
        digits = length - head
        is_whole = digits > 0 and digits % 2 == 0
        wanted = "done" if is_whole else f"session line 6: {cause}"
        yield f"cut after {length} bytes of line 6", before + line[:length], wanted, []


def stands_in(report, wanted):
    """Whether lines stand in a report one after another, each with its entry's number and line left out."""
    lines = [line if line.startswith("  ") else line.split(" ", 2)[-1] for line in report.decode().splitlines()]
    lines = [line if line.startswith("d") or line.startswith("  ") else line.partition(" ")[2] for line in lines]
    found = [line for line in lines if line in wanted]
    return found == wanted


TABLE = [empty_response, unreadable_response, clusters_1024, clusters_1025, cluster_twice, diamond_of_16_levels, diamond_of_17_levels]


def main():
    program, bad, count = player.built(sys.argv[1]), 0, 0
    rows = [(make.__name__, *make()) for make in TABLE] + list(cuts())
    for name, text, wanted, lines in rows:
        end, out = program.play(text)
        count += 1
        if end != wanted or not stands_in(out, lines):
            bad += 1
            print(f"{name}: {end}, where {wanted} is wanted, and the report\n{out.decode(errors='replace')[:1000]}")
    print(f"{count - bad} rows as wanted, {bad} not")
    return bad > 0


if __name__ == "__main__":
    sys.exit(main())
