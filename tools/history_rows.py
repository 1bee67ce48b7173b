"""Writes histories as the crate legal_history writes them down, so that the definitions can be computed on them: each reply
is made again, with the texts that were refused as patterns, each published snapshot is given whole, what stands at each
driver's entry has the number that it has to have, and the entries are those that the session lists, each after its gate.

    python3 tools/history_rows.py REFERENCE FOLDER MODULE SESSION..     a file FOLDER/NAME.antt for each session file, or
                                                                        for the random session of a number
    python3 tools/history_rows.py REFERENCE FOLDER MODULE @LIST         the same for each line `SESSION | WRONG` of a file,
                                                                        or `NAME = SESSION | WRONG`
    python3 tools/history_rows.py REFERENCE FOLDER MODULE --fuzzed FIRST COUNT MOST

REFERENCE is the folder of the reference program, which plays the sessions. MODULE is the module of the words that the
files import. In place of SESSION may stand SESSION:START>LINE: the hold of the call that starts at line START stands after
line LINE, so that its pin is open meanwhile. With --fuzzed it plays random sessions, by their seeds, of at most MOST
entries. Sessions with patterns that are accepted are left out. Where a frame comes in parts, the lines aren't written.
WRONG says what the row is to catch. With --refused before all others the files also say which texts the history tells as
refused, in their order, and others may use the history. The rows of the repository are those of

    python3 tools/history_rows.py REFERENCE crates/legal_history/proofs/Rows Rattle.legal_history.proofs.Rows @tools/history_rows.txt
    python3 tools/history_rows.py --refused REFERENCE crates/history_rows/proofs/Sessions Rattle.legal_history.proofs.Rows @tools/further_rows.txt
"""

import os
import re
import sys

from reference import Reference

KINDS = ["Kind.Listener", "Kind.Route", "Kind.Cluster", "Kind.Endpoint"]
STATES = {"ready": "State.Ready", "connecting": "State.Connecting", "failing": "State.Failing"}
NAME_FAULTS = {"bad-escape": "BadEscape", "bad-type": "WrongType", "bad-authority": "UnknownAuthority"}
BYTES = {"ok": "Whole", "whole": "Whole", "closed": "Closed", "compressed": "Compressed", "ended": "Ended"}
UNREAD = 999  # the payload that can't be read


def imported(imports, body):
    """Of these imports those that the body uses."""
    words, kept = set(re.findall(r"[\w◌≡∷≤-]+|\[\]", body)), []
    for line in imports.splitlines():
        module, names = line.removesuffix("}").split(".{")
        used = [name for name in names.split(", ") if name.strip("◌") in words]
        if used:
            kept.append(f"{module}.{{{', '.join(used)}}}")
    return "\n".join(kept) + "\n"


class LeftOut(Exception):
    """The session has something that isn't written down."""


def reason(word):
    return "Reason." + "".join(part.capitalize() for part in word.split("-"))


def listed(terms):
    return "(" + "".join(term + " ∷ " for term in terms) + "[])"


def record(**fields):
    return "(record { " + "; ".join(f"{name} = {term}" for name, term in fields.items()) + " })"


def number(n):
    return f"(record {{ 0 = {n} }})"


def optional(term):
    return "None" if term is None else f"(Some {term})"


def signed(n):
    return f"(pos {n})" if n >= 0 else f"(negsuc {-n - 1})"


def truth(b):
    return "true" if b else "false"


def nested(terms, last):
    """Pairs in pairs, as a list of facts has them."""
    return "".join(f"({term}, " for term in terms) + last + ")" * len(terms)


def after(count, base):
    """A pattern for so many more than the base."""
    return "(suc " * count + base + ")" * count


class Writer:
    """A history, written down; `tells` asks for its refused texts too."""

    def __init__(self, reference, session, history, title, tells):
        self.reference, self.session, self.history, self.title, self.tells = reference, session, history, title, tells
        self.texts, self.values, self.definitions = {}, {}, []
        self.payloads, self.responses, self.checked = {}, [], []
        self.streams = {}  # of each authority whose stream is up, what came of a frame that hasn't ended

    def text(self, t):
        if t == "":
            return "[]"
        if t not in self.texts:
            plain = t.isascii() and t.isprintable() and '"' not in t and "\\" not in t
            body = f'codes "{t}"' if plain else listed(str(byte) for byte in t.encode())
            self.texts[t] = self.defined("Name", body, "text")
        return self.texts[t]

    def defined(self, type_, body, prefix):
        if body not in self.values:
            name = f"{prefix}{len(self.values)}"
            self.values[body] = name
            self.definitions.append(f"abbrev {name} : {type_}\n{name} = {body}\n")
        return self.values[body]

    def names(self, texts):
        return listed(self.text(t) for t in texts)

    # ---- values

    def fraction(self, f):
        return record(n=f[0], of=f[1], known="refl")

    def path(self, path):
        if path[0] == "pattern":
            raise LeftOut("pattern")
        variant = "Prefix" if path[0] == "prefix" else "Whole"
        return f"(PathTest.{variant} {self.text(path[1])} {truth(path[2])})"

    def action(self, action):
        if action[0] == "nothing":
            return "Action.Nothing"
        return "(Action.To " + listed(record(cluster=self.text(c), weight=w) for c, w in action[1]) + ")"

    def header_test(self, test):
        kind, *of = test
        if kind == "pattern":
            raise LeftOut("pattern")
        if kind == "range":
            return f"(HeaderTest.Range {signed(of[0])} {signed(of[1])})"
        if kind == "present":
            return f"(HeaderTest.Present {truth(of[0])})"
        if kind == "nocase":
            return f"(HeaderTest.NoCase (TextTest.{of[0][0].capitalize()} {self.text(of[0][1])}))"
        return f"(HeaderTest.{kind.capitalize()} {self.text(of[0])})"

    def header_rule(self, rule):
        name, test, invert = rule
        return record(name=self.text(name), test=self.header_test(test), invert=truth(invert))

    def route(self, route):
        place, path, headers, fraction, action = route
        rules = listed(map(self.header_rule, headers))
        share = optional(self.fraction(fraction) if fraction else None)
        return record(place=place, path=self.path(path), headers=rules, fraction=share, action=self.action(action))

    def routes(self, value):
        _, name, hosts = value
        written = [record(name=self.text(n), domains=self.names(ds), routes=listed(map(self.route, rs))) for n, ds, rs in hosts]
        return self.defined("RouteValue", record(name=self.text(name), hosts=listed(written)), "routes")

    def locality(self, locality):
        (region, zone, sub_zone), priority, weight, addresses = locality
        place = record(region=self.text(region), zone=self.text(zone), sub_zone=self.text(sub_zone))
        return record(id=place, priority=priority, weight=weight, addresses=self.names(addresses))

    def drops(self, drops):
        return listed(record(category=self.text(c), fraction=self.fraction(f)) for c, f in drops)

    def endpoints(self, value):
        _, name, localities, drops = value
        body = record(name=self.text(name), localities=listed(map(self.locality, localities)), drops=self.drops(drops))
        return self.defined("EndpointValue", body, "endpoints")

    def listener(self, value):
        _, name, (how, routes) = value
        source = f"(RoutesFrom.Named {self.text(routes)})" if how == "named" else f"(RoutesFrom.Inline {self.routes(routes)})"
        return record(name=self.text(name), routes=source)

    def cluster(self, value):
        _, name, (how, of, *_), *_ = value
        shape = f"(Shape.Eds {self.text(of)})" if how == "eds" else f"(Shape.Aggregate {self.names(of)})"
        return record(name=self.text(name), shape=shape)

    def value(self, value):
        if value[0] == "listener":
            return f"(Value.Listener {self.listener(value)})"
        if value[0] == "routes":
            return f"(Value.Route {self.routes(value)})"
        if value[0] == "cluster":
            return f"(Value.Cluster {self.cluster(value)})"
        return f"(Value.Endpoint {self.endpoints(value)})"

    # ---- payloads

    def stop(self, word, refused):
        return f"(Stop.Refused {self.text(refused[-1])})" if word == "bad-pattern" else f"(Stop.Because {reason(word)})"

    def result(self, part, refused):
        if part[0] == "ok":
            return f"(Ok {record(name=self.text(part[1]), value=self.value(part[2]))})"
        name = optional(None if part[1] is None else self.text(part[1]))
        return f"(Err {record(name=name, stop=self.stop(part[2], refused))})"

    def resources(self, raw, kind):
        for any_ in raw["resources"]:
            asked = self.reference.Asked(self.history.refuse)
            part = self.reference.check(kind, (any_["type_url"], any_["value"]), asked, 16)
            self.checked.append(self.result(part, asked.refused))
            yield str(len(self.checked) - 1)

    def payload(self, payload):
        if payload not in self.payloads:
            self.payloads[payload] = self.read(payload)
        return self.payloads[payload]

    def read(self, payload):
        try:
            raw = self.reference.read("DiscoveryResponse", payload)
        except self.reference.Unreadable:
            return UNREAD
        urls = self.reference.URLS
        kind = urls.index(raw["type_url"]) if raw["type_url"] in urls else None
        resources = listed(self.resources(raw, kind) if kind is not None else [])
        version, nonce = self.text(raw["version_info"]), self.text(raw["nonce"])
        self.responses.append(f"response {9 if kind is None else kind} {version} {nonce} {resources}")
        return len(self.responses) - 1

    # ---- entries

    def key(self, key):
        return f"(key {KINDS[key[0]]} {self.text(key[1])})"

    def verdict(self, verdict):
        name = f"Verdict.{verdict[0].capitalize()}"
        return f"({name} {KINDS[verdict[1]]})" if len(verdict) > 1 else name

    def bytes_how(self, how):
        return f"(BytesHow.TooLong {how[1]})" if how[0] == "toolong" else f"BytesHow.{BYTES[how[0]]}"

    def driver_event(self, event):
        kind, *rest = event
        if kind == "open":
            return f"(DriverEvent.Opened {number(rest[0])})"
        if kind == "lost":
            return f"(DriverEvent.Lost {number(rest[0])})"
        if kind == "time":
            return f"(DriverEvent.Moment {number(rest[0])})"
        if kind == "sweep":
            return "DriverEvent.Sweep"
        if kind == "endpoint":
            return f"(DriverEvent.Endpoint {self.text(rest[0])} {STATES[rest[1]]})"
        if kind == "response":
            return f"(DriverEvent.Response {number(rest[0])} ({self.payload(rest[1])} ∷ []))"
        if kind == "bytes":
            return f"(DriverEvent.Bytes {number(rest[0])} {self.bytes_how(rest[1])})"
        raise LeftOut(kind)

    def request(self, sent):
        body = record(
            kind=KINDS[sent["kind"]], version=self.text(sent["version"]), nonce=self.text(sent["nonce"]),
            names=self.names(sent["names"]), node="(Some a_node)" if sent["node"] else "None",
            error=optional(None if sent["error"] is None else self.text(sent["error"])),
        )
        return record(authority=number(sent["authority"]), request=body)

    def driver(self, entry):
        reply = entry.reply
        missing = optional(self.key(reply["missing"]) if reply["missing"] else None)
        sent = listed(map(self.request, reply["requests"]))
        snapshot, refused = optional(reply["snapshot"]), self.names(reply["refused"])
        return f"driven {self.driver_event(entry.event)} {self.verdict(reply['verdict'])} {missing} {sent} {snapshot} {refused}"

    def call(self, call):
        headers = listed(record(name=self.text(n), value=self.text(v)) for n, v in call[2])
        return record(id=number(call[0]), path=self.text(call[1]), headers=headers, word=call[3])

    def answer(self, answer):
        kind, *rest = answer
        return {
            "to": lambda: f"(RouteAnswer.To {rest[0]} {rest[1]})",
            "noroute": lambda: "RouteAnswer.NoRoute",
            "noaction": lambda: f"(RouteAnswer.NoAction {rest[0]})",
            "nofront": lambda: f"(RouteAnswer.NoFront {reason(rest[0])})",
        }[kind]()

    def pick_reply(self, reply):
        kind, *rest = reply
        return {
            "notheld": lambda: "CallerReply.NotHeld",
            "endpoint": lambda: f"(CallerReply.Endpoint {rest[0]} {rest[2]} {rest[3]} {rest[4]})",
            "queue": lambda: f"(CallerReply.Queue {rest[0]})",
            "fail": lambda: f"(CallerReply.Fail {rest[0]} {reason(rest[1])})",
            "drop": lambda: f"(CallerReply.Drop {rest[0]} {rest[1]})",
        }[kind]()

    def caller(self, entry):
        (kind, *of), reply = entry.event, entry.reply
        if kind == "pin":
            answer = "CallerReply.NoSnapshot" if reply[0] == "nosnapshot" else f"(CallerReply.Pinned {reply[1]})"
            return f"called (CallerEvent.Pin {self.call(of[0])}) {answer}"
        if kind == "hold":
            return f"called (CallerEvent.Hold {self.call(of[0])}) (CallerReply.Routed {reply[1]} {self.answer(reply[2])})"
        if kind == "commit":
            return f"called (CallerEvent.Commit {number(of[0])}) CallerReply.{'NotHeld' if reply[0] == 'notheld' else 'Released'}"
        return f"called (CallerEvent.Pick {number(of[0])} {of[1]}) {self.pick_reply(reply)}"

    def entry(self, entry):
        body = self.driver(entry) if isinstance(entry.reply, dict) else self.caller(entry)
        actor = entry.actor if isinstance(entry.actor, int) else 0
        return f"on_line {actor} {entry.line} ({body})"

    # ---- snapshots

    def front(self, front):
        if front[0] == "reason":
            return f"(Err {reason(front[1])})"
        return f"(Ok {record(listener=self.text(front[1]), routes=self.routes(front[2]), host=front[3])})"

    def leaf(self, leaf):
        name, state = leaf
        body = f"(Ok {self.endpoints(state[1])})" if state[0] == "value" else f"(Err {reason(state[1])})"
        return record(name=self.text(name), state=body)

    def cluster_entry(self, cluster):
        name, state = cluster
        if state[0] == "reason":
            return record(name=self.text(name), state=f"(Err {reason(state[1])})")
        leaves = record(aggregate=truth(state[1]), leaves=listed(map(self.leaf, state[2])))
        return record(name=self.text(name), state=f"(Ok {leaves})")

    def child(self, child):
        (leaf, priority, *_), there, state, pending, unused = child
        view = record(there=truth(there), state=STATES[state], pending=truth(pending), unused=truth(unused))
        return record(leaf=self.text(leaf), priority=priority, view=view)

    def ready(self, parts):
        sums, total = [], 0
        for part in parts:
            total += part[1]
            sums.append(str(total))
        written = [record(locality=place, weight=weight, ready=self.names(up)) for place, weight, up, _ in parts]
        return f"(PickBody.Ready {listed(written)} {listed(sums)})"

    def view(self, view):
        if view[0] == "reason":
            return f"(Err {reason(view[1])})"
        _, children, chosen, waiting, _, (drops, body) = view
        if body[0] == "ready":
            behind = self.ready(body[1])
        else:
            behind = "PickBody.Queue" if body[0] == "queue" else f"(PickBody.Fail {reason(body[1])})"
        written = record(
            children=listed(map(self.child, children)), chosen=chosen,
            waiting=optional(listed(map(self.child, waiting)) if waiting else None),
            picker=record(drops=self.drops(drops), body=behind),
        )
        return f"(Ok {written})"

    def snapshot(self, n, config, views):
        written = record(front=self.front(config[0]), clusters=listed(map(self.cluster_entry, config[1])))
        body = record(number=n, config=written, trees=listed(map(self.view, views)))
        return f"abbrev snapshot{n} : Snapshot\nsnapshot{n} = {body}\n"

    # ---- the file

    def homes(self):
        for (kind, name, *_), home in sorted(self.history.homes.items(), key=lambda at: at[0][:2]):
            if home != 0:
                where = f"(Home.At {number(home)})" if isinstance(home, int) else f"(Home.Nowhere NameFault.{NAME_FAULTS[home]})"
                yield record(kind=KINDS[kind], name=self.text(name), home=where)

    def steps(self):
        """For each driver's entry what stands, the snapshot published last before it, and the number, with its fact."""
        for i, entry in enumerate(self.history.H, 1):
            if isinstance(entry.reply, dict):
                now, before, number = self.history.latest(i), self.history.latest(i - 1), entry.reply["snapshot"]
                stands = "None" if now == 0 else f"(Some (shown snapshot{now}))"
                last = "None" if before == 0 else f"(Some snapshot{before})"
                fact = f"(refl, are_apart snapshot{now} snapshot{before} refl)" if number is not None and before > 0 else "refl"
                yield record(stands=stands, last=last, number=optional(number)), fact

    def refusals(self):
        """The texts that entries tell as refused, the oldest entry's first."""
        return [text for e in self.history.H if isinstance(e.reply, dict) for text in e.reply["refused"]]

    def refused(self):
        """The texts that were refused as patterns in the history, each once."""
        return self.names(dict.fromkeys(self.refusals()))

    def unfolding(self):
        """What the replies unfold: digits too, where a resource has no name and is told by its place."""
        return UNFOLDING + " digits" * any("name = None" in checked for checked in self.checked)

    def told(self):
        """What the history tells as refused, where that is asked for."""
        if not self.tells:
            return []
        return ["-- what entries tell as refused, the oldest entry's first: seen where none is told, or the newest first\n"
                f"pub refused : refused_texts history ≡ {self.names(self.refusals())}\nrefused = refl\n"]

    # ---- the session's lines

    def frames(self, authority, data):
        """The bytes of a data line, each payload by its place. What doesn't end a frame stays as it is."""
        is_up, before = authority in self.streams, self.streams.pop(authority, b"")
        payloads, rest = self.cut(before + data)
        if before and payloads:
            raise LeftOut("a frame in parts")
        if is_up and self.stays_up(payloads, rest):
            self.streams[authority] = rest
        written = [byte for payload in payloads for byte in (0, 0, 0, 0, 1, self.payload(payload))]
        return listed(map(str, written + list(rest[len(before):])))

    def stays_up(self, payloads, rest):
        """Whether the stream stays up on which these came, and then the beginning of a frame."""
        too_long = len(rest) >= 5 and int.from_bytes(rest[1:5], "big") > 4194304
        return not too_long and rest[:1] in (b"", b"\0") and UNREAD not in map(self.payload, payloads)

    def opened(self, authority):
        self.streams[authority] = b""
        return f"(DriverLine.Opened {number(authority)})"

    def lost(self, authority):
        self.streams.pop(authority, None)
        return f"(DriverLine.Lost {number(authority)})"

    @staticmethod
    def cut(data):
        payloads = []
        while len(data) >= 5 and data[0] == 0 and len(data) - 5 >= int.from_bytes(data[1:5], "big"):
            end = 5 + int.from_bytes(data[1:5], "big")
            payloads.append(data[5:end])
            data = data[end:]
        return payloads, data

    def driver_line(self, event):
        kind, *rest = event
        return {
            "open": lambda: self.opened(rest[0]),
            "data": lambda: f"(DriverLine.Bytes {number(rest[0])} {self.frames(rest[0], rest[1])})",
            "lost": lambda: self.lost(rest[0]),
            "time": lambda: f"(DriverLine.Moment {number(rest[0])})",
            "endpoint": lambda: f"(DriverLine.Endpoint {self.text(rest[0])} {STATES[rest[1]]})",
            "sweep": lambda: "DriverLine.Sweep",
        }[kind]()

    def act(self, event):
        kind, *rest = event
        if kind == "start":
            return f"(Act.Start {self.call(rest[0])})"
        return f"(Act.Pick {number(rest[0])} {rest[1]})" if kind == "pick" else f"(Act.Commit {number(rest[0])})"

    def line(self, line):
        work = f"(Work.Driver {self.driver_line(line.event)})" if line.caller is None else f"(Work.Caller {line.caller} {self.act(line.event)})"
        body = record(number=line.number, gate=optional(line.gate), work=work)
        return f"abbrev line{line.number} : Line\nline{line.number} = {body}\n"

    def made_by(self, caller):
        """For each line of a caller the places of its entries."""
        for line in self.session.lines:
            if line.caller == caller:
                yield line, [i for i, e in enumerate(self.history.H, 1) if e.actor == caller and e.line == line.number]

    def played(self, caller):
        """The fact that the entries of a caller are those of its lines."""
        fact, lines, later = "all", "[]", "[]"
        for line, places in reversed(list(self.made_by(caller))):
            now = "".join(f"entry{i} ∷ " for i in places)
            numbers = f"(All-from_recursion (λ entry. entry.line ≡ {line.number}) ({now}[]) {nested(['refl'] * len(places), 'tt')})"
            events = {"start": "(inl refl)" if len(places) == 1 else "(inr refl)"}.get(line.event[0], "refl")
            fact = f"(next line{line.number} ({lines}) ({now}[]) ({later}) {numbers} {events} {fact})"
            lines, later = f"line{line.number} ∷ {lines}", now + later
        return fact

    def starts(self, caller):
        """The fact that a hold follows just each pin that got a snapshot."""
        facts = ["refl" if e.event[0] == "pin" else "tt" for e in self.history.H if e.actor == caller]
        return nested(facts, "tt")

    def opens(self):
        """The fact that each entry of a line with a gate stands after the entry that ends the gate's line."""
        gates = {line.number: line.gate for line in self.session.lines}
        return nested(["tt" if gates.get(e.line) is None else "refl" for e in reversed(self.history.H)], "tt")

    def lines(self):
        """What the session lists, and that the history is legal by it."""
        callers, count = range(1, self.session.callers + 1), self.session.callers
        all_lines = "".join(f"line{line.number} ∷ " for line in self.session.lines) + "[]"
        oldest_first = "".join(f"entry{i} ∷ " for i in range(1, len(self.history.H) + 1)) + "[]"
        actors = nested([f"at_most {e.actor if isinstance(e.actor, int) else 0} {count} refl" for e in self.history.H], "tt")
        each = "".join(f"each {after(c, 'zero')} low high = {self.played(c)}\n" for c in callers)
        return [
            *map(self.line, self.session.lines),
            f"abbrev lines : List Line\nlines = {all_lines}\n",
            f"-- the oldest first\nabbrev entries : List Entry\nentries = {oldest_first}\n",
            f"-- each line's events once and in order: seen where a line is left out, or comes twice\neach : (caller : ℕ) → 1 ≤ caller → caller ≤ {count} → ArePlayed (lines_by caller lines) (entries_by caller entries)\n"
            f"each zero low high = absurd (omega (arith, low))\n{each}each {after(count + 1, 'n')} low high = absurd (omega (arith, high))\n",
            f"-- seen where the driver lists nothing, no responses, or not the last sweep\nlisted : AreListed (is_read set) {count} lines entries\n{LISTING}\n"
            f"listed = record {{ driver = refl; each_caller = each; actors = All-from_recursion (λ entry. entry.actor ≤ {count}) entries {actors} }}\n",
            *(f"started{c} : AreStarted (entries_by {c} entries)\nstarted{c} = {self.starts(c)}\n" for c in callers),
            f"-- seen where a line's end isn't told, so that a gate stays shut\nopened : AreOpen lines history\nopened = {self.opens()}\n",
            "swept : EndsInSweep history\nswept = refl\n",
        ]

    def lines_if_whole(self):
        known = len(self.definitions)
        try:
            return self.lines()
        except LeftOut:
            del self.definitions[known:]
            return []

    def write(self, imports):
        history = self.history
        entries = [f"abbrev entry{i} : Entry\nentry{i} = {self.entry(e)}\n" for i, e in enumerate(history.H, 1)]
        snapshots = [self.snapshot(i, c, vs) for i, (_, c, vs) in enumerate(history.snapshots, 1)]
        homes = listed(self.homes())
        target, host = self.text(history.target[1]), self.text(history.host_text)
        newest_first = "".join(f"entry{i} ∷ " for i in range(len(entries), 0, -1)) + "[]"
        published = "".join(f"snapshot{i} ∷ " for i in range(len(snapshots), 0, -1)) + "[]"
        steps = list(reversed(list(self.steps())))
        refused, told, lines = self.refused(), self.told(), self.lines_if_whole()
        body = "\n".join([
            *self.definitions,
            f"abbrev key : Kind → Name → Key\nkey = key_from {homes}\n",
            f"abbrev set : Setting\nset = setting_with key {len(history.boot.authorities)} {target} {host}\n"
            f"    {listed(self.responses)}\n    {listed(self.checked)}\n",
            *entries,
            *snapshots,
            f"-- the newest first\nabbrev{' pub' * self.tells} history : List Entry\nhistory = {newest_first}\n",
            f"replies : replayed set {refused} history ≡ as_made history\n{self.unfolding()}\nreplies = refl\n",
            *told,
            f"published : snapshots set history ≡ {published}\n{UNFOLDING}\npublished = refl\n",
            f"-- what stands at each driver's entry, and its number: seen where the first snapshot isn't 1, where one is published that\n-- shows nothing new, or where one that does isn't\nabbrev told : List Step\ntold = {listed(step for step, _ in steps)}\n",
            f"stood : steps set history ≡ told\n{UNFOLDING}\nstood = refl\n",
            f"numbered : AreNumbered told\nnumbered = {nested([fact for _, fact in steps], 'tt')}\n",
            *lines,
        ])
        return f"-- {self.title}.\n{imported(imports, body)}\n{body}"


UNFOLDING = "unfolding leaves_within goes_on ends"
LISTING = "unfolding driver_list cut cut_within first_frame fault_at"

IMPORTS = """use Rattle.std.proofs.Common.{◌≡◌, ◌≤◌, inl, inr, refl, ℕ, zero, suc, pos, negsuc, List, [], ◌∷◌, true, false, Option, Some, None, Ok, Err, codes, arith}
use Rattle.std.proofs.lemmas.List.Elements.{All-from_recursion}
use Rattle.std.specs.Fmt.{digits}
use Rattle.xc_base.specs.declared.names.Kind.{Kind}
use Rattle.xc_base.specs.declared.names.Key.{Key}
use Rattle.xc_base.specs.declared.names.Home.{Home}
use Rattle.xc_base.specs.declared.names.NameFault.{NameFault}
use Rattle.xc_base.specs.declared.names.State.{State}
use Rattle.xc_base.specs.declared.reason.Reason.{Reason}
use Rattle.header_match.specs.declared.rule.HeaderTest.{HeaderTest}
use Rattle.header_match.specs.declared.rule.TextTest.{TextTest}
use Rattle.xds_config.specs.declared.value.Value.{Value}
use Rattle.xds_config.specs.declared.listener_values.RoutesFrom.{RoutesFrom}
use Rattle.xds_config.specs.declared.route_values.RouteValue.{RouteValue}
use Rattle.xds_config.specs.declared.route_values.PathTest.{PathTest}
use Rattle.xds_config.specs.declared.route_values.Action.{Action}
use Rattle.xds_config.specs.declared.cluster_values.Shape.{Shape}
use Rattle.xds_config.specs.declared.endpoint_values.EndpointValue.{EndpointValue}
use Rattle.check_steps.specs.declared.check_fault.Stop.{Stop}
use Rattle.route_match.specs.declared.answer.RouteAnswer.{RouteAnswer}
use Rattle.aggregate_expand.specs.Leaves.{goes_on, ends, leaves_within}
use Rattle.weighted_lb.specs.declared.picker.PickBody.{PickBody}
use Rattle.cluster_tree.specs.declared.snapshot.Snapshot.{Snapshot}
use Rattle.ads_stream.specs.declared.verdict.Verdict.{Verdict}
use Rattle.call_journal.specs.declared.event.BytesHow.{BytesHow}
use Rattle.call_journal.specs.declared.event.DriverEvent.{DriverEvent}
use Rattle.call_journal.specs.declared.event.CallerEvent.{CallerEvent}
use Rattle.call_journal.specs.declared.reply.CallerReply.{CallerReply}
use Rattle.call_journal.specs.declared.entry.Entry.{Entry}
use Rattle.grpc_framing.specs.Cut.{cut, cut_within, first_frame}
use Rattle.grpc_framing.specs.Framing.{fault_at}
use Rattle.session_lines.specs.declared.session.DriverLine.{DriverLine}
use Rattle.session_lines.specs.declared.session.Act.{Act}
use Rattle.session_lines.specs.declared.session.Work.{Work}
use Rattle.session_lines.specs.declared.session.Line.{Line}
use Rattle.session_script.specs.Plan.{driver_list, lines_by, entries_by, ArePlayed, all, next, AreListed}
use Rattle.config_assembly.specs.Orders.{Name}
use Rattle.xds_history.specs.Setting.{Setting}
use Rattle.xds_history.specs.Responses.{refused_texts}
use Rattle.xds_history.specs.Right.{shown}
use Rattle.legal_history.specs.Legal.{AreOpen, AreStarted, EndsInSweep, is_read}
use MODULE.{a_node, response, setting_with, key_from, driven, called, on_line, replayed, as_made, snapshots, Step, steps, AreNumbered, are_apart, at_most}
"""


def title_of(name):
    words = name.replace("own.", "").replace("-", "_").split("_")
    return " ".join(words).capitalize()


def module_of(name):
    return "".join(w.capitalize() for w in name.replace("own.", "").replace("-", "_").split("_"))


def put(reference, folder, imports, name, title, session, history, tells):
    try:
        text = Writer(reference, session, history, title, tells).write(imports)
    except LeftOut:
        return False
    with open(os.path.join(folder, f"{name}.antt"), "w", encoding="utf-8") as out:
        out.write(text)
    return True


def sessions_of(given):
    """The sessions that are given, each with its row's name and what the row is to catch, where a list says so."""
    for word in given:
        if not word.startswith("@"):
            yield word, name_of(word), ""
            continue
        with open(word[1:], encoding="utf-8") as file:
            for line in file:
                session, _, wrong = line.strip().partition(" | ")
                name, _, session = session.rpartition(" = ")
                yield session, name or name_of(session), wrong


def name_of(session):
    """The name of a session's row: that of its file."""
    return os.path.basename(session.partition(":")[0]).removesuffix(".session")


def session_of(reference, path):
    """The session of a file, or the random one of a number, and what it is called."""
    if path.isdigit():
        return reference.read_session(reference.fuzz(int(path))), f"random session {path}"
    with open(path, "rb") as file:
        return reference.read_session(file.read()), path


def main():
    tells = sys.argv[1] == "--refused"
    reference_folder, folder, module, *rest = sys.argv[2:] if tells else sys.argv[1:]
    reference, imports = Reference(reference_folder), IMPORTS.replace("MODULE", module)
    made = []
    if rest[0] == "--fuzzed":
        first, count, most = map(int, rest[1:])
        for seed in range(first, first + count):
            try:
                session = reference.read_session(reference.fuzz(seed))
                history = reference.play(session)
            except reference.SessionFault:
                continue
            if 10 <= len(history.H) <= most and put(reference, folder, imports, f"F{seed}", f"Random session {seed}", session, history, tells):
                made.append(f"F{seed}")
    else:
        for given, name, wrong in sessions_of(rest):
            path, _, hold = given.partition(":")
            session, source = session_of(reference, path)
            title = f"{title_of(name)}: written by tools/history_rows.py from {source}"
            holds = {}
            if hold:
                start, line = map(int, hold.split(">"))
                holds[start] = line
                title += f", where the hold of line {start} stands after line {line}"
            title += f".\n-- It is to catch: {wrong}" if wrong else ""
            history = reference.history_with(session, holds)
            if put(reference, folder, imports, module_of(name), title, session, history, tells):
                made.append(module_of(name))
    print("\n".join(made))


main()
