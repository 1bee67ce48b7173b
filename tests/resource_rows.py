"""tests/resource_rows.py PROBE: checks the rows of tests/resource_rows.txt with the program probe_resource at PROBE.

tests/resource_rows.py --write prints the rows as that program reads them.
"""

import importlib.util
import pathlib
import re
import subprocess
import sys

HERE = pathlib.Path(__file__).resolve().parent
TYPES = "type.googleapis.com/"

# the numbers of fields; a name that stands for two numbers is written with its message, as `string.prefix`
NUMBERS = {
    # Any, and the wrapper
    "type_url": 1, "holds": 2, "version": 1, "resource": 2, "resource.name": 3,
    # Listener, and its connection manager
    "name": 1, "api_listener": 19, "any": 1, "rds": 3, "route_config": 4, "config_source": 1, "route_config_name": 2,
    "ads": 3, "self": 5,
    # RouteConfiguration, VirtualHost and Route
    "host": 2, "domain": 2, "route": 3, "match": 1, "action": 2,
    # RouteMatch
    "prefix": 1, "path": 2, "safe_regex": 10, "regex": 2, "case_sensitive": 4, "value": 1, "header": 6, "query_parameter": 7,
    "runtime_fraction": 9, "default_value": 1, "numerator": 1, "denominator": 2,
    # RouteAction
    "cluster": 1, "cluster_header": 2, "weighted_clusters": 3, "to": 1, "weight": 2,
    # HeaderMatcher and StringMatcher
    "exact_match": 4, "range_match": 6, "start": 1, "end": 2, "present_match": 7, "invert_match": 8, "prefix_match": 9,
    "suffix_match": 10, "safe_regex_match": 11, "contains_match": 12, "string_match": 13, "exact": 1, "string.prefix": 2,
    "suffix": 3, "string.safe_regex": 5, "ignore_case": 6, "contains": 7,
    # Cluster, and the configuration of an aggregate
    "type": 2, "eds_cluster_config": 3, "eds_config": 1, "service_name": 2, "lb_policy": 6, "cluster_type": 38, "typed_config": 2,
    "child": 1, "other": 2,
    # ClusterLoadAssignment
    "cluster_name": 1, "endpoints": 2, "policy": 4, "drop_overloads": 2, "category": 1, "drop_percentage": 2, "locality": 1,
    "region": 1, "zone": 2, "sub_zone": 3, "lb_endpoints": 2, "load_balancing_weight": 3, "priority": 5, "health_status": 2,
    "endpoint": 1, "at": 1, "socket_address": 1, "address": 2, "port_value": 3,
}

# the URLs of types
URLS = {
    "wrapper": TYPES + "envoy.service.discovery.v3.Resource",
    "listener": TYPES + "envoy.config.listener.v3.Listener",
    "manager": TYPES + "envoy.extensions.filters.network.http_connection_manager.v3.HttpConnectionManager",
    "route": TYPES + "envoy.config.route.v3.RouteConfiguration",
    "cluster": TYPES + "envoy.config.cluster.v3.Cluster",
    "endpoint": TYPES + "envoy.config.endpoint.v3.ClusterLoadAssignment",
    "aggregate": TYPES + "envoy.extensions.clusters.aggregate.v3.ClusterConfig",
}


def tool(name):
    """A module of tools/."""
    spec = importlib.util.spec_from_file_location(name, HERE.parent / "tools" / f"{name}.py")
    module = importlib.util.module_from_spec(spec)
    spec.loader.exec_module(module)
    return module


wire = tool("wire")


def field(word):
    """The bytes of a field that one word writes."""
    if word == "?":
        return b"\x0b"
    name, sign, rest = re.fullmatch(r"([a-z_.]+)([:@=~])(.*)", word).groups()
    number = NUMBERS[name]
    if sign == ":":
        return wire.delimited(number, rest)
    if sign == "@":
        return wire.delimited(number, URLS[rest])
    return wire.number(number, int(rest)) if sign == "=" else wire.delimited(number, b"\xff")


def message(words, place=None):
    """The message of these words, up to the `}` that ends it. `#` is the place where it is repeated."""
    out = b""
    while words and words[0] != "}":
        word = words.pop(0)
        opens = re.fullmatch(r"([a-z_.]+)(?:\*(\d+))?\{", word)
        if not opens:
            out += field(word if place is None else word.replace("#", str(place)))
            continue
        name, count = opens.groups()
        copies = [list(words) for _ in range(int(count or 1))]
        for turn, copy in enumerate(copies):
            out += wire.delimited(NUMBERS[name], message(copy, turn if count else place))
            words[:] = copy[1:]
    return out


def first_fields(any_words):
    """The type URL and the value of an Any, whose words are `type_url..` and `holds{`."""
    url, value, words = "", b"", any_words
    while words:
        word = words.pop(0)
        if word == "holds{":
            value = message(words)
            words.pop(0)
        elif word.startswith("type_url@"):
            url = URLS[word.removeprefix("type_url@")]
        elif word != "type_url:":
            raise ValueError(word)
    return url, value


def rows():
    """The rows, each with its line, the kind, the type URL, the value and the answer."""
    for line, row in enumerate((HERE / "resource_rows.txt").read_text().splitlines(), 1):
        if row and not row.startswith("#"):
            resource, answer = row.split(" => ")
            kind, *words = resource.split(" ")
            yield line, kind, *first_fields(words), answer


def is_answer(shown, answer):
    """Whether the program shows the answer."""
    if answer == "accepted":
        return shown.startswith("Ok(Checked ")
    if answer.startswith("refused "):
        _, name, reason = answer.split(" ")
        name = "None" if name == "-" else f'Some("{name}")'
        return shown == f"Err(Refused {{ name: {name}, reason: {reason} }})"
    return shown == f"Ok({answer})"


def main():
    given = list(rows())
    written = "".join(f"{kind} {url.encode().hex()} {value.hex()}\n" for _, kind, url, value, _ in given)
    if sys.argv[1:] == ["--write"]:
        sys.stdout.write(written)
        return
    ran = subprocess.run([sys.argv[1], "show"], input=written.encode(), capture_output=True, timeout=600, check=False)
    if ran.returncode:
        raise SystemExit(f"{sys.argv[1]}: {ran.stderr.decode(errors='replace')}")
    shown = ran.stdout.decode().splitlines()
    for (line, *_, answer), told in zip(given, shown, strict=True):
        if not is_answer(told, answer):
            raise SystemExit(f"tests/resource_rows.txt, line {line}\nwanted: {answer}\nshown: {told}")
    print(f"{len(given)} resources have the answer of their row")


main()
