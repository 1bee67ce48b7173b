"""Envoy's messages: from the proto3 JSON mapping to bytes by protobuf's own writer, and back."""

import base64
import binascii
import os
import pathlib
import re
import shutil
import subprocess
import tempfile

from describing.places import Missing, Number, Problem

PROTO = pathlib.Path(__file__).resolve().parent.parent / "proto"
PREFIX = "type.googleapis.com/"
URLS = {
    "listener": PREFIX + "envoy.config.listener.v3.Listener",
    "route": PREFIX + "envoy.config.route.v3.RouteConfiguration",
    "cluster": PREFIX + "envoy.config.cluster.v3.Cluster",
    "endpoint": PREFIX + "envoy.config.endpoint.v3.ClusterLoadAssignment",
}
WRAPPER = PREFIX + "envoy.service.discovery.v3.Resource"
TYPED = {url.rpartition("/")[2]: url.rpartition(".")[2] for url in [*URLS.values(), WRAPPER, *(
    "envoy.extensions.filters.network.http_connection_manager.v3.HttpConnectionManager",
    "envoy.extensions.clusters.aggregate.v3.ClusterConfig")]}
OTHER = "other_fields"
WRAPPED = ("UInt32Value", "BoolValue")


def varint(data, at):
    """The number at a place of the bytes, and the place after it; ValueError where there is none."""
    value = shift = 0
    while at < len(data) and shift < 70:
        value |= (data[at] & 0x7F) << shift
        at, shift = at + 1, shift + 7
        if data[at - 1] < 0x80:
            return value, at
    raise ValueError("no varint")


def fields(data):
    """The fields of a message's bytes, each (number, wire type, body, all its bytes); ValueError where they can't be
    read."""
    at = 0
    while at < len(data):
        start = at
        tag, at = varint(data, at)
        number, kind = tag >> 3, tag & 7
        if kind == 0:
            body, at = varint(data, at)
        elif kind in (1, 2, 5):
            size, at = varint(data, at) if kind == 2 else ({1: 8, 5: 4}[kind], at)
            body, at = data[at:at + size], at + size
        else:
            raise ValueError("no field")
        if at > len(data) or not number:
            raise ValueError("no field")
        yield number, kind, body, data[start:at]


class LeftOut:
    """The members that aren't encoded: of each message and member the first place and how often. Places are those of
    the document that is set, where one is, else of the description."""

    def __init__(self):
        self.seen, self.document = {}, None

    def add(self, what, path):
        document, first, count = self.seen.get(what, (self.document, path, 0))
        self.seen[what] = document, first, count + 1


class Messages:
    """The messages of tools/proto/xds.proto, compiled by protoc."""

    def __init__(self):
        try:
            from google.protobuf import descriptor_pb2, descriptor_pool, message, message_factory
        except ImportError:
            raise Missing("the module google.protobuf", "python3-protobuf") from None
        pool, self.files = descriptor_pool.DescriptorPool(), descriptor_pb2.FileDescriptorSet()
        self.files.ParseFromString(compile_proto())
        for one in self.files.file:
            pool.AddSerializedFile(one.SerializeToString())
        self.pool, self.fault = pool, message.DecodeError
        get = getattr(message_factory, "GetMessageClass", None)
        self.message_class = get or message_factory.MessageFactory(pool).GetPrototype
        self.left_out, self.as_hex = LeftOut(), []

    def new(self, name):
        return self.message_class(self.pool.FindMessageTypeByName("xds." + name))()

    # From JSON.

    def encode(self, name, value, path, left_out=None):
        """The bytes of a message, given as JSON."""
        message = self.new(name)
        Filling(self, left_out or self.left_out).fill(message, value, path)
        return message.SerializeToString(deterministic=True)

    def any_bytes(self, value, path, default=None):
        """The bytes of the Any of a value."""
        message = self.new("Any")
        Filling(self, self.left_out).fill_any(message, value, path, default)
        return message.SerializeToString(deterministic=True)

    # To JSON.

    def parse(self, name, data):
        """The message of some bytes; None where they can't be read."""
        message = self.new(name)
        try:
            refuse_odd_texts(message.DESCRIPTOR, data)
            message.ParseFromString(data)
        except (self.fault, ValueError):
            return None
        return message

    def decode(self, name, data):
        """The JSON that is encoded to exactly these bytes; None where there is none."""
        message = self.parse(name, data)
        try:
            value = self.object_of(message) if message is not None else None
            same = value is not None and self.encode(name, value, (), LeftOut()) == data
        except (ValueError, Problem):
            return None
        return value if same else None

    def object_of(self, message):
        """The JSON object of a message."""
        out = {}
        for field, value in sorted(message.ListFields(), key=lambda pair: pair[0].number):
            many = hasattr(value, "append") or hasattr(value, "add")
            values = [self.member_of(field, one) for one in (value if many else [value])]
            out[field.name] = values if many else values[0]
        more = other_fields(message)
        if more:
            out[OTHER] = more.hex()
        return out

    def member_of(self, field, value):
        if field.message_type is None:
            names = field.enum_type.values_by_number if field.enum_type else {}
            return names[value].name if value in names else value
        if field.message_type.name in WRAPPED:
            return value.value
        return self.any_of(value) if field.message_type.name == "Any" else self.object_of(value)

    def any_of(self, message, default=None):
        """The JSON of an Any; its type is left out where it is the default. Why its value stays hexadecimal is added to
        the list `as_hex`."""
        out = {} if message.type_url == default else {"@type": message.type_url}
        name = TYPED.get(message.type_url.rpartition("/")[2])
        value = self.decode(name, message.value) if name else None
        if value is None or other_fields(message):
            self.as_hex.append("its type isn't known" if not name else "it can't be read"
                               if self.parse(name, message.value) is None else "it isn't in protobuf's own spelling")
            return {**out, "hex": message.value.hex()}
        if name == "Resource" and "resource" in value and value["resource"].get("@type") == default:
            del value["resource"]["@type"]
        return {**out, **value}


def compile_proto():
    """The descriptors of xds.proto, as protoc writes them."""
    if not shutil.which("protoc"):
        raise Missing("protoc", "protobuf-compiler")
    with tempfile.TemporaryDirectory() as folder:
        out = os.path.join(folder, "set")
        subprocess.run(["protoc", f"--proto_path={PROTO}", f"--descriptor_set_out={out}", "xds.proto"], check=True)
        return pathlib.Path(out).read_bytes()


def other_fields(message):
    """The bytes of the fields that aren't listed."""
    known = message.DESCRIPTOR.fields_by_number
    return b"".join(field for number, _, _, field in fields(message.SerializeToString()) if number not in known)


def refuse_odd_texts(descriptor, data):
    """ValueError where a text isn't UTF-8 or fields can't be read, of which protobuf itself would write a log."""
    for number, kind, body, _ in fields(data):
        field = descriptor.fields_by_number.get(number)
        if field is not None and kind == 2 and field.type == field.TYPE_STRING:
            body.decode()
        elif field is not None and kind == 2 and field.message_type is not None:
            refuse_odd_texts(field.message_type, body)


class Filling:
    """Sets the fields of messages from JSON."""

    def __init__(self, messages, left_out):
        self.messages, self.left_out = messages, left_out

    def fill(self, message, value, path):
        """Sets the fields of a message. Members that aren't listed are left out, and noted."""
        if not isinstance(value, dict):
            raise Problem(path, f"an object with the fields of {message.DESCRIPTOR.name} is wanted here")
        seen = {}
        for key, member in value.items():
            if member is None:
                continue
            if key == OTHER:
                self.fill_other(message, member, path + (key,))
                continue
            field = self.field_of(message.DESCRIPTOR, key)
            if field is None:
                self.left_out.add(f"{message.DESCRIPTOR.name}.{key}", path + (key,))
                continue
            self.refuse_conflict(seen, field, key, path)
            self.set_field(message, field, member, path + (key,))

    def fill_other(self, message, value, path):
        """Adds the bytes of fields that aren't listed."""
        try:
            message.MergeFromString(hex_bytes(value, path))
        except (self.messages.fault, ValueError):
            raise Problem(path, "these bytes aren't fields of a message") from None

    @staticmethod
    def refuse_conflict(seen, field, key, path):
        """Refuses a field, or a member of a oneof, where it or another one stood before."""
        group = field.containing_oneof.name if field.containing_oneof else field.name
        if group in seen:
            raise Problem(path + (key,), f"{seen[group]} and {key} can't stand beside each other")
        seen[group] = key

    @staticmethod
    def field_of(descriptor, key):
        """The field of a name, as Envoy's files or as JSON write it."""
        for field in descriptor.fields:
            if key in (field.name, field.json_name):
                return field
        return None

    def set_field(self, message, field, value, path):
        target = getattr(message, field.name)
        many = hasattr(target, "append") or hasattr(target, "add")
        if many and not isinstance(value, list):
            raise Problem(path, "a list is wanted here")
        if many and field.message_type is not None:
            for place, one in enumerate(value):
                self.set_message(target.add(), one, path + (place,))
        elif many:
            target.extend(scalar(field, one, path + (place,)) for place, one in enumerate(value))
        elif field.message_type is not None:
            target.SetInParent()
            self.set_message(target, value, path)
        else:
            setattr(message, field.name, scalar(field, value, path))

    def set_message(self, message, value, path):
        name = message.DESCRIPTOR.name
        if name == "Any":
            self.fill_any(message, value, path)
        elif name in WRAPPED:
            value = value.get("value", 0) if isinstance(value, dict) else value
            message.value = scalar(message.DESCRIPTOR.fields_by_name["value"], value, path)
        else:
            self.fill(message, value, path)

    def fill_any(self, message, value, path, default=None):
        """Sets an Any from an object with its `@type`, from one without it, of the default type, or from `type_url` and
        `value` (base64). The content of a type that isn't known is left out, and noted."""
        if not isinstance(value, dict):
            raise Problem(path, "an object, with its @type, is wanted here")
        value = dict(value)
        raw = [key for key in ("type_url", "typeUrl") if key in value and "@type" not in value]
        url = value.pop(raw[0] if raw else "@type", default)
        if not isinstance(url, str):
            raise Problem(path, "the @type is missing" if url is None else "the @type is a text")
        message.type_url = url
        if raw:
            message.value = base64_bytes(value.get("value", ""), path + ("value",))
            return
        name = TYPED.get(url.rpartition("/")[2])
        if set(value) == {"hex"}:
            message.value = hex_bytes(value["hex"], path + ("hex",))
        elif name == "Resource" and isinstance(value.get("resource"), dict) and default:
            value["resource"] = {"@type": default, **value["resource"]}
            message.value = self.messages.encode(name, value, path, self.left_out)
        elif name:
            message.value = self.messages.encode(name, value, path, self.left_out)
        elif value:
            self.left_out.add(f"the content of {url}", path)


def hex_bytes(value, path):
    """The bytes of a hexadecimal text."""
    text = str(value) if isinstance(value, (str, int)) and not isinstance(value, bool) else None
    if text is None or len(text) % 2 or not re.fullmatch("[0-9a-fA-F]*", text):
        raise Problem(path, "an even number of hexadecimal digits is wanted here")
    return bytes.fromhex(text)


def base64_bytes(value, path):
    """The bytes of a base64 text, in the standard or the URL alphabet."""
    try:
        text = value.replace("-", "+").replace("_", "/")
        return base64.b64decode(text + "=" * (-len(text) % 4), validate=True)
    except (AttributeError, binascii.Error, ValueError):
        raise Problem(path, "a text in base64 is wanted here") from None


RANGES = {"uint32": (0, 2**32 - 1), "int64": (-2**63, 2**63 - 1), "enum": (-2**31, 2**31 - 1)}


def scalar(field, value, path):
    """The value of a field that is no message."""
    kind = {field.TYPE_STRING: "string", field.TYPE_BYTES: "bytes", field.TYPE_BOOL: "bool", field.TYPE_ENUM: "enum",
            field.TYPE_UINT32: "uint32", field.TYPE_INT64: "int64"}[field.type]
    if kind == "bool":
        if not isinstance(value, bool):
            raise Problem(path, "true or false is wanted here")
        return value
    if kind == "string":
        return text_of(value, path)
    if kind == "bytes":
        return base64_bytes(value, path)
    names = field.enum_type.values_by_name if kind == "enum" else {}
    if isinstance(value, str) and value in names:
        return names[value].number
    least, most = RANGES[kind]
    number = whole_number(value)
    if number is None or not least <= number <= most:
        wanted = f"one of {', '.join(names)}" if names else f"a whole number from {least} to {most}"
        given = "this" if isinstance(value, (dict, list)) else value
        raise Problem(path, f"{wanted} is wanted here, and not {given}")
    return number


def text_of(value, path):
    """A text; a number stands for itself as it is written."""
    if isinstance(value, bool) or not isinstance(value, (str, int)):
        raise Problem(path, "a text is wanted here (in quotes, if it is a word such as true)")
    return str(value)


def whole_number(value):
    """The whole number of a value, also where it is written as a text or with zeros after its point."""
    if isinstance(value, bool) or not isinstance(value, (int, str)):
        return None
    if isinstance(value, int):
        return value
    if isinstance(value, Number) and re.fullmatch(r"-?\d{1,20}\.0+", value):
        return int(value.partition(".")[0])
    return int(value) if re.fullmatch(r"-?\d{1,20}", value) else None
