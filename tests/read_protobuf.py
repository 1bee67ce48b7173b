"""tests/read_protobuf.py SHOW: compares the reading of responses and the writing of requests with protoc.

SHOW is the program probe_discovery. Of 25 random responses, some in two parts or with unknown fields, the
program tells what protoc encoded. Of 25 random requests, it writes the bytes that protoc encodes, and protoc
decodes them to what they were made of. The messages are the same at each run.
"""

import pathlib
import random
import subprocess
import sys

TOOLS = pathlib.Path(__file__).resolve().parent.parent / "tools"
sys.path.insert(0, str(TOOLS))
import wire  # noqa: E402

PROTO = TOOLS / "proto"
KINDS = {
    "listener": "envoy.config.listener.v3.Listener",
    "route": "envoy.config.route.v3.RouteConfiguration",
    "cluster": "envoy.config.cluster.v3.Cluster",
    "endpoint": "envoy.config.endpoint.v3.ClusterLoadAssignment",
}
FEATURES = ["envoy.lb.does_not_support_overprovisioning", "xds.config.resource-in-sotw"]
LETTERS = "abcXYZ09./:-_ %=,\"'\\\n\t\x00\x7fäß€😀"


def run(words, given):
    ran = subprocess.run(words, input=given, capture_output=True, timeout=60, check=False)
    if ran.returncode:
        raise SystemExit(f"{' '.join(map(str, words))}: {ran.stderr.decode(errors='replace')}")
    return ran.stdout


def protoc(verb, message, given):
    """protoc's --encode, --decode or (without a message) --decode_raw."""
    if not message:
        return run(["protoc", f"--{verb}"], given)
    return run(["protoc", f"--proto_path={PROTO}", f"--{verb}=xds.{message}", "xds.proto"], given)


def quoted(body):
    """A text or bytes in protoc's text form."""
    body = body.encode() if isinstance(body, str) else body
    return '"' + "".join(f"\\{byte:03o}" for byte in body) + '"'


def some_text(r, most=12):
    return "".join(r.choice(LETTERS) for _ in range(r.choice([0, 1, 3, r.randint(0, most), most])))


def some_bytes(r):
    return bytes(r.randrange(256) for _ in range(r.choice([0, 1, 5, 127, 128, r.randint(0, 300)])))


def some_response(r):
    url = "type.googleapis.com/" + r.choice([*KINDS.values(), some_text(r)])
    resources = [(r.choice([url, some_text(r)]), some_bytes(r)) for _ in range(r.randint(0, 4))]
    return {"version": some_text(r), "nonce": some_text(r), "type_url": url, "resources": resources}


def response_text(response):
    """The response in protoc's text form."""
    lines = [f"resources {{ type_url: {quoted(url)} value: {quoted(value)} }}" for url, value in response["resources"]]
    lines += [f"{part}: {quoted(response[part])}" for part in ("type_url", "nonce")]
    return "\n".join([*lines, f"version_info: {quoted(response['version'])}"]).encode()


def encoded_response(r, response):
    """Its bytes; or, without its version, those and further fields, with a version of another type among them."""
    if r.random() < 0.7:
        return protoc("encode", "DiscoveryResponse", response_text(response))
    response["version"] = ""
    more = wire.number(1, r.randrange(1 << 64)) + wire.number(3, 1) + wire.varint(900 << 3 | 1) + r.randbytes(8)
    body = protoc("encode", "DiscoveryResponse", response_text(response))
    return body + more if r.random() < 0.5 else more + body


def merged(first, second):
    """What two encodings one after another say."""
    out = {part: second[part] or first[part] for part in ("version", "nonce", "type_url")}
    return {**out, "resources": first["resources"] + second["resources"]}


def shown(response):
    """What the program is to show of it."""
    lines = [f"{part} {response[part].encode().hex()}" for part in ("version", "nonce", "type_url")]
    lines += [f"resource {url.encode().hex()} {value.hex()}" for url, value in response["resources"]]
    return "".join(line + "\n" for line in lines).encode()


def try_response(show, r):
    response = some_response(r)
    body = encoded_response(r, response)
    if r.random() < 0.4:
        more = some_response(r)
        body += encoded_response(r, more)
        response = merged(response, more)
    return run([show, "response"], body) == shown(response)


def some_request(r):
    """A request as the program makes it of a response: five names or more are the node's texts too, and where there is
    no version the nonce is the error's text too."""
    names = [some_text(r, 150) for _ in range(r.choice([0, 1, 4, 5, 6]))]
    if r.random() < 0.4:
        names[2:5] = [""] * len(names[2:5])
    version, nonce = r.choice(["", some_text(r)]), some_text(r, 200)
    return {"kind": r.choice([*KINDS]), "version": version, "nonce": nonce, "names": names,
            "node": names[:5] if len(names) >= 5 else None, "error": None if version else nonce}


def source(request):
    """The response of which the program makes the request."""
    url = "type.googleapis.com/" + KINDS[request["kind"]]
    resources = [(name, name.encode()[1:]) for name in request["names"]]
    return {"version": request["version"], "nonce": request["nonce"], "type_url": url, "resources": resources}


def request_text(request):
    """The request in protoc's text form."""
    lines = [f"version_info: {quoted(request['version'])}", f"response_nonce: {quoted(request['nonce'])}"]
    lines += [f"resource_names: {quoted(name)}" for name in request["names"]]
    lines.append(f"type_url: {quoted('type.googleapis.com/' + KINDS[request['kind']])}")
    if request["node"]:
        name, cluster, *locality = map(quoted, request["node"])
        parts = zip(("region", "zone", "sub_zone"), locality)
        place = " ".join(f"{part}: {value}" for part, value in parts)
        place = f"locality {{ {place} }}" if any(request["node"][2:]) else ""
        features = " ".join(f"client_features: {quoted(feature)}" for feature in FEATURES)
        lines.append(f"node {{ id: {name} cluster: {cluster} {place} {features} }}")
    if request["error"] is not None:
        lines.append(f"error_detail {{ code: 3 message: {quoted(request['error'])} }}")
    return "\n".join(lines).encode()


def try_request(show, r):
    request = some_request(r)
    body = run([show, "request"], protoc("encode", "DiscoveryResponse", response_text(source(request))))
    wanted = protoc("encode", "DiscoveryRequest", request_text(request))
    same = protoc("decode_raw", "", body) == protoc("decode_raw", "", wanted)
    back = protoc("encode", "DiscoveryRequest", protoc("decode", "DiscoveryRequest", body))
    return same and body == wanted == back


def main():
    show, bad = pathlib.Path(sys.argv[1]).resolve(), 0
    for seed in range(25):
        for what, tried in (("response", try_response), ("request", try_request)):
            if not tried(show, random.Random(f"{what} {seed}")):
                bad += 1
                print(f"read_protobuf: {what} {seed} differs")
    print(f"read_protobuf: {50 - bad} messages as protoc has them, {bad} not")
    return bad > 0


if __name__ == "__main__":
    sys.exit(main())
