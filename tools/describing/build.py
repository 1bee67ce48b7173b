"""From a description to the text of a session."""

import json
import pathlib
import re

from describing import dumps
from describing.forms import MOST_CALL, MOST_TIME, MOST_WORD, STATES, escape, is_address, is_escaped
from describing.messages import OTHER, URLS, WRAPPER, hex_bytes, text_of, whole_number
from describing.places import Problem, read_document, to_json

TOP = ("bootstrap", "bootstrap_file", "target", "callers", "events", "last_line_feed")
MEMBERS = {
    "open": (), "lost": (), "time": (), "sweep": (), "endpoint": ("state",), "data": ("authority", "pieces"),
    "rest": ("pieces",), "start": ("caller", "word", "path", "headers"), "pick": ("caller", "word"),
    "commit": ("caller",),
}
RESPONSE = {"type": "type", "type_url": "type_url", "typeUrl": "type_url", "version": "version",
            "version_info": "version", "versionInfo": "version", "nonce": "nonce", "resources": "resources",
            OTHER: OTHER}


class Builder:
    """The session of a description, line by line."""

    def __init__(self, document, messages):
        self.document, self.messages = document, messages
        self.lines, self.labels, self.waiting = [], {}, {}
        self.authorities, self.callers, self.now = set(), 1, 0
        self.calls, self.started = {}, set()

    def session(self):
        """The bytes of the session."""
        given = self.document.value
        if not isinstance(given, dict):
            raise Problem((), "a description is an object with bootstrap, target, callers and events")
        refuse_unknown(given, TOP, ())
        boot = self.bootstrap(given)
        target = self.target(given.get("target"))
        self.callers = number_in(given.get("callers", 1), ("callers",), 1, 16)
        self.lines = ["xds-session 1", f"boot {boot}", f"target {target}", f"callers {self.callers}"]
        events = given.get("events") or []
        if not isinstance(events, list):
            raise Problem(("events",), "the events are a list")
        for place, event in enumerate(events):
            self.event(event, ("events", place))
        for label, (_, rest) in self.waiting.items():
            if rest:
                raise Problem(("events",), f"{len(rest)} bytes of {label} are left, and no `rest: {label}` sends them")
        ends = given.get("last_line_feed", True)
        if not isinstance(ends, bool):
            raise Problem(("last_line_feed",), "true or false is wanted here")
        return ("\n".join(self.lines) + ("\n" if ends else "")).encode()

    def bootstrap(self, given):
        """The bootstrap in one line of JSON; its named authorities are noted."""
        if ("bootstrap" in given) == ("bootstrap_file" in given):
            raise Problem((), "one of bootstrap and bootstrap_file is wanted")
        path, value = ("bootstrap",), given.get("bootstrap")
        if "bootstrap_file" in given:
            path = ("bootstrap_file",)
            value = self.file(given["bootstrap_file"], path).value
        text = value if isinstance(value, str) else to_json(value)
        try:
            read = json.loads(text)
        except (ValueError, RecursionError):
            raise Problem(path, "the bootstrap isn't JSON") from None
        if "\n" in text or "\r" in text:
            text = to_json(read)
        servers = read.get("xds_servers") if isinstance(read, dict) else None
        if not (isinstance(servers, list) and servers and isinstance(servers[0], dict)
                and isinstance(servers[0].get("server_uri"), str)):
            raise Problem(path, "the bootstrap is an object with xds_servers, a list of objects with server_uri")
        named = read.get("authorities") or {}
        if not isinstance(named, dict):
            raise Problem(path, "the authorities are an object")
        self.authorities = {"-", *("+" + name for name in named)}
        return text

    def target(self, value):
        text = line_text(value, ("target",))
        form = re.fullmatch(r"xds:(?://(?P<authority>[^/]*)/)?(?P<name>[^ ]+)", text)
        if not form or form["authority"] is None and form["name"].startswith("//"):
            raise Problem(("target",), "a target is xds:NAME, xds:///NAME or xds://AUTHORITY/NAME")
        if form["authority"] and "+" + form["authority"] not in self.authorities:
            raise Problem(("target",), f"the bootstrap's authorities don't have {form['authority']}")
        return text

    def file(self, name, path):
        """The document of a file that the description names, beside it."""
        if not isinstance(name, str):
            raise Problem(path, "the name of a file is wanted here")
        found = pathlib.Path(self.document.name).parent / name
        try:
            data = found.read_bytes()
        except OSError as fault:
            raise Problem(path, f"{found} can't be read ({fault.strerror})") from None
        return read_document(str(found), data)

    # Events.

    def event(self, event, path):
        if not isinstance(event, dict):
            raise Problem(path, "an event is an object")
        verbs = [verb for verb in MEMBERS if verb in event]
        if len(verbs) != 1:
            raise Problem(path, f"an event has exactly one of {', '.join(MEMBERS)}")
        verb = verbs[0]
        refuse_unknown(event, (verb, "after", "label", *MEMBERS[verb]), path)
        gate = self.gate(event["after"], path + ("after",)) if "after" in event else ""
        for words in getattr(self, verb)(event, path):
            self.lines.append(gate + words)
            gate = ""
        if "label" in event:
            label = text_of(event["label"], path + ("label",))
            if label in self.labels or re.fullmatch("[0-9]+", label):
                raise Problem(path + ("label",), "a label isn't a number, and no other event has it")
            self.labels[label] = len(self.lines)

    def gate(self, value, path):
        """What begins a line that waits for another one."""
        number = self.labels.get(value) if isinstance(value, str) else whole_number(value)
        if number is None:
            raise Problem(path, "this is the label of an earlier event, or the number of an earlier line")
        if not 5 <= number <= len(self.lines):
            raise Problem(path, "the number is that of an earlier event's line in the session, 5 or more")
        return f"@{number} "

    def authority(self, value, path):
        text = "-" if value is None else text_of(value, path)
        if text not in self.authorities:
            known = ", ".join(sorted(self.authorities, key=lambda name: name.encode()))
            raise Problem(path, f"the authority is one of the bootstrap: {known} (- is the default one)")
        return text

    def open(self, event, path):
        return [f"d open {self.authority(event['open'], path + ('open',))}"]

    def lost(self, event, path):
        return [f"d lost {self.authority(event['lost'], path + ('lost',))}"]

    def time(self, event, path):
        now = number_in(event["time"], path + ("time",), 0, MOST_TIME)
        if now < self.now:
            raise Problem(path + ("time",), f"time doesn't fall, and {self.now} stood before")
        self.now = now
        return [f"d time {now}"]

    def sweep(self, event, path):
        if event["sweep"] not in (None, True, {}):
            raise Problem(path + ("sweep",), "nothing stands here")
        return ["d sweep"]

    def endpoint(self, event, path):
        address = text_of(event["endpoint"], path + ("endpoint",))
        if not is_address(address):
            raise Problem(path + ("endpoint",), "an endpoint is a numeric address with its port, as 10.0.0.1:80")
        if event.get("state") not in STATES:
            raise Problem(path + ("state",), f"a state is one of {', '.join(STATES)}")
        return [f"d endpoint {address} {event['state']}"]

    # Data.

    def data(self, event, path):
        """The data lines of an event; what its pieces leave waits for `rest`."""
        authority = self.authority(event.get("authority"), path + ("authority",))
        given, at = event["data"], path + ("data",)
        if isinstance(given, list):
            texts = [self.bytes_text(one, at + (place,)) for place, one in enumerate(given)]
        else:
            texts = [self.bytes_text(given, at)]
        text = "".join(texts)
        if not text:
            raise Problem(at, "a data line has at least one byte")
        label = event.get("label")
        label = None if label is None else text_of(label, path + ("label",))
        return self.pieces(event, path, label, authority, text)

    def rest(self, event, path):
        label = text_of(event["rest"], path + ("rest",))
        authority, text = self.waiting.get(label, ("", ""))
        if not text:
            raise Problem(path + ("rest",), "this is the label of an earlier data event of which bytes are left")
        return self.pieces(event, path, label, authority, text)

    def pieces(self, event, path, label, authority, text):
        """The data lines of a hexadecimal text, cut as the event says."""
        sizes, total = event.get("pieces"), len(text) // 2
        at = path + ("pieces",)
        if isinstance(sizes, list):
            sizes = [number_in(size, at + (place,), 1, total) for place, size in enumerate(sizes)]
        elif sizes is None:
            sizes = [total]
        else:
            size = number_in(sizes, at, 1, total)
            sizes = [min(size, total - begun) for begun in range(0, total, size)]
        if not sizes or sum(sizes) > total:
            raise Problem(at, f"the pieces are of {total} bytes together at most, and at least one")
        if sum(sizes) < total and label is None:
            raise Problem(at, f"{total - sum(sizes)} bytes are left; give the event a label, and send them by `rest`")
        lines, begun = [], 0
        for size in sizes:
            lines.append(f"d data {authority} {text[2 * begun:2 * (begun + size)]}")
            begun += size
        self.waiting[label] = authority, text[2 * begun:]
        return lines

    def bytes_text(self, value, path):
        """The hexadecimal text of a response, or of bytes that are given so."""
        if isinstance(value, dict):
            payload = self.response(value, path)
            return (b"\0" + len(payload).to_bytes(4, "big") + payload).hex()
        hex_bytes(value, path)
        return str(value)

    def response(self, value, path):
        """The bytes of a DiscoveryResponse."""
        given, where = {}, {}
        for key, member in value.items():
            name = RESPONSE.get(key)
            if name is None:
                self.messages.left_out.add(f"DiscoveryResponse.{key}", path + (key,))
            elif name in given:
                raise Problem(path + (key,), f"{where[name][-1]} and {key} can't stand beside each other")
            elif member is not None:
                given[name], where[name] = member, path + (key,)
        resources = given.get("resources", [])
        at = where.get("resources", path)
        default = self.type_url(given, where, path, resources)
        message = self.messages.new("DiscoveryResponse")
        message.version_info = text_of(given.get("version", ""), where.get("version", path))
        message.type_url = default
        message.nonce = text_of(given.get("nonce", ""), where.get("nonce", path))
        for encoded in self.resources(resources, at, default):
            message.resources.add().MergeFromString(encoded)
        if OTHER in given:
            message.MergeFromString(hex_bytes(given[OTHER], where[OTHER]))
        return message.SerializeToString(deterministic=True)

    def type_url(self, given, where, path, resources):
        """The type of a response: that which it names, else that of its first resource."""
        if "type_url" in given and "type" in given:
            raise Problem(where["type_url"], "type and type_url can't stand beside each other")
        if "type_url" in given:
            return text_of(given["type_url"], where["type_url"])
        if "type" in given:
            word = text_of(given["type"], where["type"])
            if word not in URLS and "/" not in word:
                raise Problem(where["type"], f"a type is one of {', '.join(URLS)}, or a type URL")
            return URLS.get(word, word)
        first = resources[0] if isinstance(resources, list) and resources else None
        if isinstance(first, dict) and first.get("@type") == WRAPPER:
            first = first.get("resource")
        if isinstance(first, dict) and isinstance(first.get("@type"), str):
            return first["@type"]
        raise Problem(path, f"a response has a type: one of {', '.join(URLS)}, or a type URL")

    def resources(self, given, path, url):
        """The bytes of the resources of a response, which are a list, or those of a file that are of its type."""
        if isinstance(given, list):
            return [self.messages.any_bytes(one, path + (place,), url) for place, one in enumerate(given)]
        if not isinstance(given, dict):
            raise Problem(path, "the resources are a list, or an object with file")
        refuse_unknown(given, ("file",), path)
        document = self.file(given.get("file"), path + ("file",))
        encoded = dumps.encode_resources(document, self.messages, [url])
        if not encoded:
            raise Problem(path + ("file",), f"{document.name} has no resource of the type {url}")
        return [one for _, one in encoded]

    # Calls.

    def call(self, event, verb, path):
        """The caller and the call of an event."""
        caller = number_in(event.get("caller", 1), path + ("caller",), 1, self.callers)
        call = number_in(event[verb], path + (verb,), 0, MOST_CALL)
        if self.calls.setdefault(call, caller) != caller:
            raise Problem(path + (verb,), f"the call {call} is one of caller {self.calls[call]}")
        return caller, call

    def start(self, event, path):
        caller, call = self.call(event, "start", path)
        if call in self.started:
            raise Problem(path + ("start",), f"the call {call} was started before")
        self.started.add(call)
        word = number_in(event.get("word", 0), path + ("word",), 0, MOST_WORD)
        at = path + ("path",)
        rpc = line_text(event.get("path"), at)
        if not rpc.startswith("/") or " " in rpc:
            raise Problem(at, "a path begins with / and has no space")
        headers = self.headers(event.get("headers") or [], path + ("headers",))
        return [" ".join([f"c {caller} start {call} {word} {rpc}", *headers])]

    @staticmethod
    def headers(given, path):
        """The words of a call's headers: of an object of names and values, or of a list of objects with name and value,
        or with name and escaped."""
        pairs = []
        if isinstance(given, dict):
            for name, value in given.items():
                values = value if isinstance(value, list) else [value]
                pairs += [(name, escape(text_of(one, path + (name,))), path + (name,)) for one in values]
        elif isinstance(given, list):
            for place, one in enumerate(given):
                at = path + (place,)
                if not isinstance(one, dict) or set(one) not in ({"name", "value"}, {"name", "escaped"}):
                    raise Problem(at, "a header is an object with name and value, or with name and escaped")
                spelled = one["escaped"] if "escaped" in one else escape(text_of(one["value"], at + ("value",)))
                pairs.append((text_of(one["name"], at + ("name",)), line_text(spelled, at), at))
        else:
            raise Problem(path, "the headers are an object of names and values, or a list")
        if len(pairs) > 64:
            raise Problem(path, "a call has at most 64 headers")
        for name, value, at in pairs:
            if not re.fullmatch("[a-z0-9._-]+", name):
                raise Problem(at, "a header's name has lower-case letters, digits, -, _ and .")
            if " " in value or not is_escaped(value):
                raise Problem(at, "an escaped value has no space, and is UTF-8 when its escapes are read")
        return [f"{name}={value}" for name, value, _ in pairs]

    def pick(self, event, path):
        caller, call = self.call(event, "pick", path)
        return [f"c {caller} pick {call} {number_in(event.get('word', 0), path + ('word',), 0, MOST_WORD)}"]

    def commit(self, event, path):
        caller, call = self.call(event, "commit", path)
        return [f"c {caller} commit {call}"]


def refuse_unknown(value, names, path):
    """Refuses a member that isn't one of these."""
    for key in value:
        if key not in names:
            raise Problem(path + (key,), f"this member isn't known; the members here are {', '.join(names)}")


def number_in(value, path, least, most):
    """A whole number in a range."""
    number = whole_number(value)
    if number is None or not least <= number <= most:
        raise Problem(path, f"a whole number from {least} to {most} is wanted here")
    return number


def line_text(value, path):
    """A text that stands in one line."""
    text = text_of(value, path)
    if "\n" in text:
        raise Problem(path, "this has no line feed")
    return text
