"""From a config dump to a description that one begins with."""

from describing import dumps, explain
from describing.build import Builder
from describing.forms import is_address
from describing.messages import URLS
from describing.places import Document, Problem

KINDS = {url: kind for kind, url in URLS.items()}


def description(document, messages):
    """The head and the events of the description: the resources of the dump come in one response of each kind, all
    endpoints are ready, and one call is made."""
    found = {}
    for one, data in dumps.encode_resources(document, messages, list(KINDS)):
        message = messages.new("Any")
        message.ParseFromString(data)
        value = messages.any_of(message, one.url)
        inner = value.get("resource", value)
        name = str(value.get("name") or inner.get("name") or inner.get("cluster_name") or "")
        found.setdefault((authority_of(name), KINDS[one.url]), []).append((name, one.version, value))
    head = head_of(document, found)
    authorities = sorted({authority for authority, _ in found})
    events = [{"open": authority} for authority in authorities]
    for kind in URLS:
        events += [response(authority, kind, found[authority, kind]) for authority in authorities
                   if (authority, kind) in found]
    everything = [value for some in found.values() for _, _, value in some]
    events += [{"endpoint": address, "state": "ready"} for address in dict.fromkeys(addresses(everything))]
    events += [{"start": 0, "path": path_of(everything)}, {"pick": 0}, {"commit": 0}]
    session = Builder(Document(document.name, {**head, "events": events}, {}), messages).session()
    return explain.describe(document.name, session, messages)


def head_of(document, found):
    """The head: the target is the first listener of a client."""
    names = [name for (_, kind), some in found.items() if kind == "listener" for name, _, value in some
             if "api_listener" in value.get("resource", value)]
    if not names:
        raise Problem((), "no resource here is a Listener with an api_listener, as gRPC clients have them", document)
    head = {"bootstrap": {"xds_servers": [{"server_uri": "ms:1"}], "node": {"id": "n"}}, "callers": 1}
    named = sorted(authority[1:] for authority, _ in found if authority != "-")
    if named:
        head["bootstrap"]["authorities"] = {name: {} for name in dict.fromkeys(named)}
    authority = authority_of(names[0])
    name = names[0] if authority == "-" else names[0].split("/", 4)[4].partition("?")[0]
    return {**head, "target": f"xds:///{name}" if authority == "-" else f"xds://{authority[1:]}/{name}"}


def authority_of(name):
    """The authority at which a resource of a name lives."""
    parts = name.split("/", 4)
    return "+" + parts[2] if parts[0] == "xdstp:" and len(parts) == 5 else "-"


def response(authority, kind, some):
    """The event of a response with these resources."""
    version = max((version for _, version, _ in some), key=lambda text: (len(text), text)) or "1"
    data = {"type": kind, "version": version, "nonce": f"{kind}1", "resources": [value for _, _, value in some]}
    return {"authority": authority, "data": data}


def members(value, name):
    """The members of a name, anywhere in a value."""
    if isinstance(value, list):
        for one in value:
            yield from members(one, name)
    elif isinstance(value, dict):
        for key, one in value.items():
            if key == name:
                yield one
            yield from members(one, name)


def addresses(value):
    """The numeric addresses of endpoints."""
    for one in members(value, "socket_address"):
        host, port = str(one.get("address", "")), one.get("port_value", 0)
        address = f"[{host}]:{port}" if ":" in host else f"{host}:{port}"
        if is_address(address):
            yield address


def path_of(value):
    """A path that some route tells of: the first whole path, else the first prefix and a method behind it."""
    for match in members(value, "match"):
        if match.get("path", "").startswith("/"):
            return match["path"]
        if match.get("prefix", "").startswith("/"):
            rest = "Service/Method" if match["prefix"] == "/" else "Method"
            return match["prefix"] + (rest if match["prefix"].endswith(("/", ".")) else "")
    return "/Service/Method"
