"""The bytes of discovery messages, for sessions and for tests: fields of messages in ascending order of their
numbers, with the shortest varints, and gRPC frames (one byte 0, four bytes of length, the payload)."""

TYPES = "type.googleapis.com/"
LISTENER = TYPES + "envoy.config.listener.v3.Listener"
ROUTE = TYPES + "envoy.config.route.v3.RouteConfiguration"
CLUSTER = TYPES + "envoy.config.cluster.v3.Cluster"
ENDPOINT = TYPES + "envoy.config.endpoint.v3.ClusterLoadAssignment"
AGGREGATE = TYPES + "envoy.extensions.clusters.aggregate.v3.ClusterConfig"
MANAGER = (TYPES + "envoy.extensions.filters.network.http_connection_manager.v3"
           ".HttpConnectionManager")


def varint(value):
    """A number, seven bits a byte, the low ones first."""
    if value < 0x80:
        return bytes((value,))
    out = bytearray()
    while value > 0x7F:
        out.append(0x80 | value & 0x7F)
        value >>= 7
    out.append(value)
    return bytes(out)


def number(field, value):
    """A field with a varint."""
    return varint(field << 3) + varint(value)


def delimited(field, body):
    """A field with bytes, a text or a message."""
    if isinstance(body, str):
        body = body.encode()
    return varint(field << 3 | 2) + varint(len(body)) + body


def text(field, body):
    """The same, but nothing where it is empty, as of a field that isn't a member of a oneof."""
    return delimited(field, body) if body else b""


def frame(payload):
    """The gRPC message of a payload."""
    return b"\0" + len(payload).to_bytes(4, "big") + payload


def any_of(url, value):
    """google.protobuf.Any: type_url 1, value 2."""
    return text(1, url) + text(2, value)


def response(version, nonce, url, resources):
    """A DiscoveryResponse: version_info 1, resources 2, type_url 4, nonce 5."""
    anys = b"".join(delimited(2, any_of(url, resource)) for resource in resources)
    return text(1, version) + anys + text(4, url) + text(5, nonce)


def route(test, path, cluster):
    """A Route: match 1 (prefix 1 or path 2), route 2 (cluster 1)."""
    members = {"prefix": 1, "path": 2}
    return delimited(1, delimited(members[test], path)) + delimited(2, delimited(1, cluster))


def virtual_host(name, domains, routes):
    """A VirtualHost: name 1, domains 2, routes 3."""
    return (text(1, name) + b"".join(delimited(2, domain) for domain in domains)
            + b"".join(delimited(3, one) for one in routes))


def route_configuration(name, hosts):
    """A RouteConfiguration: name 1, virtual_hosts 2."""
    return text(1, name) + b"".join(delimited(2, host) for host in hosts)


def listener(name, routes):
    """A Listener whose HttpConnectionManager has the RouteConfiguration inline (route_config 4)."""
    return text(1, name) + delimited(19, delimited(1, any_of(MANAGER, delimited(4, routes))))


def eds_cluster(name):
    """A Cluster of type EDS (2): name 1, type 2, eds_cluster_config 3 with eds_config 1 of ads 3."""
    return text(1, name) + number(2, 3) + delimited(3, delimited(1, delimited(3, b"")))


def locality(zone, hosts, weight=1, priority=0):
    """A LocalityLbEndpoints: locality 1 (zone 2), lb_endpoints 2 of these hosts at port 80 (endpoint 1, address 1,
    socket_address 1: address 2, port_value 3), load_balancing_weight 3 (value 1), priority 5."""
    sockets = (text(2, host) + number(3, 80) for host in hosts)
    ends = b"".join(delimited(2, delimited(1, delimited(1, delimited(1, socket)))) for socket in sockets)
    rest = number(5, priority) if priority else b""
    return delimited(1, text(2, zone)) + ends + delimited(3, number(1, weight)) + rest


def assignment(name, localities):
    """A ClusterLoadAssignment: cluster_name 1, endpoints 2."""
    return text(1, name) + b"".join(delimited(2, one) for one in localities)


def listener_of(name, routes_name, rules):
    """A Listener that has one virtual host for the domain `*`. A rule is (test, path, cluster), with the test `prefix` or
    `path`."""
    host = virtual_host("h", ["*"], [route(*rule) for rule in rules])
    return listener(name, route_configuration(routes_name, [host]))


def named_listener(name, routes):
    """A Listener whose HttpConnectionManager names a RouteConfiguration (rds 3: config_source 1, route_config_name 2)."""
    rds = delimited(1, delimited(3, b"")) + text(2, routes)
    return text(1, name) + delimited(19, delimited(1, any_of(MANAGER, delimited(3, rds))))


def weighted_route(prefix, parts):
    """A Route with a prefix that leads to clusters by weight (weighted_clusters 3: clusters 1: name 1, weight 2)."""
    clusters = b"".join(delimited(1, text(1, name) + delimited(2, number(1, weight))) for name, weight in parts)
    return delimited(1, delimited(1, prefix)) + delimited(2, delimited(3, clusters))


def pattern_route(pattern, cluster):
    """A Route whose path meets a pattern (match 1: safe_regex 10: regex 2)."""
    return delimited(1, delimited(10, delimited(2, pattern))) + delimited(2, delimited(1, cluster))


def aggregate(name, children):
    """A Cluster that is an aggregate: name 1, cluster_type 38 (name 1, typed_config 2: clusters 1)."""
    inner = b"".join(delimited(1, child) for child in children)
    kind = delimited(1, "envoy.clusters.aggregate") + delimited(2, any_of(AGGREGATE, inner))
    return text(1, name) + delimited(38, kind)
