"""Documents that are read with the place of each value, and the faults that name such a place."""

import json
import re


class Problem(Exception):
    """A wrong input: the path of the value in its document, the one sentence that says what is wrong with it, and the
    file, where it isn't the description itself."""

    def __init__(self, path, sentence, document=None):
        super().__init__(sentence)
        self.path, self.sentence, self.document = path, sentence, document


class Missing(Exception):
    """A program or a module that isn't installed, and the Debian package that has it."""

    def __init__(self, what, package):
        super().__init__(f"{what} isn't installed; it is in Debian's package {package} (apt-get install {package})")


class Number(str):
    """A number that isn't written as a whole number, as it is written."""


class Document:
    """What a file says: its value, and the lines of its values by their paths, where they are known."""

    def __init__(self, name, value, lines):
        self.name, self.value, self.lines = name, value, lines

    def place(self, path):
        """The place of a path, as it is told: the file, the line if it is known, and the path."""
        near = path
        while near and near not in self.lines:
            near = near[:-1]
        line = f":{self.lines[near]}" if near in self.lines else ""
        where = path_text(path)
        return f"{self.name}{line}: {where}: " if where else f"{self.name}{line}: "


def path_text(path):
    """A path as it is told: `events[3].data.nonce`."""
    out = ""
    for part in path:
        if isinstance(part, int):
            out += f"[{part}]"
        else:
            out += f".{part}" if out else str(part)
    return out


def plain_number(text):
    """The value of a number as JSON and YAML write it."""
    value = int(text) if len(text) < 40 and text.lstrip("-").isdigit() else None
    return value if value is not None and str(value) == text else Number(text)


def read_json(name, text):
    """The document of a JSON text."""
    def members(pairs):
        out = dict(pairs)
        if len(out) != len(pairs):
            twice = [key for place, (key, _) in enumerate(pairs) if key in dict(pairs[:place])]
            raise Problem((), f"the member {twice[0]} stands twice in one object")
        return out

    def other(word):
        raise Problem((), f"{word} is no value of JSON")

    try:
        value = json.loads(text, object_pairs_hook=members, parse_int=plain_number, parse_float=plain_number,
                           parse_constant=other)
    except json.JSONDecodeError as fault:
        at = Document(name, None, {(): fault.lineno})
        raise Problem((), f"this isn't JSON: {fault.msg} (column {fault.colno})", at) from None
    except RecursionError:
        raise Problem((), "this nests too deeply") from None
    return Document(name, value, {})


def read_yaml(name, text):
    """The document of a YAML text. Words such as `on` and texts such as dates stay texts."""
    try:
        import yaml
    except ImportError:
        raise Missing("the module yaml", "python3-yaml") from None

    class Loader(getattr(yaml, "CSafeLoader", yaml.SafeLoader)):
        yaml_implicit_resolvers = {}

    for tag, form, starts in (
            ("null", r"^(?:~|null|)$", ["~", "n", ""]), ("bool", r"^(?:true|false)$", ["t", "f"]),
            ("float", r"^-?[0-9]+(?:\.[0-9]+)?(?:[eE][-+]?[0-9]+)?$", list("-0123456789"))):
        Loader.add_implicit_resolver(f"tag:yaml.org,2002:{tag}", re.compile(form), starts)
    try:
        root = yaml.compose(text, Loader=Loader)
    except yaml.MarkedYAMLError as fault:
        mark = fault.problem_mark or fault.context_mark
        at = Document(name, None, {(): mark.line + 1})
        raise Problem((), f"this isn't YAML: {fault.problem or fault.context} (column {mark.column + 1})", at) from None
    except yaml.YAMLError as fault:
        raise Problem((), f"this isn't YAML: {str(fault).splitlines()[0]}") from None
    except RecursionError:
        raise Problem((), "this nests too deeply") from None
    document = Document(name, None, {})
    try:
        document.value = value_of(root, (), document) if root else None
    except Problem as problem:
        problem.document = document
        raise
    return document


def value_of(node, path, document):
    """The value of a YAML node; the lines of it and of its members are noted."""
    document.lines[path] = node.start_mark.line + 1
    if len(path) > 200:
        raise Problem(path[:5], "this nests too deeply")
    if node.id == "sequence":
        return [value_of(member, path + (place,), document) for place, member in enumerate(node.value)]
    if node.id == "mapping":
        out = {}
        for key, member in node.value:
            if key.id != "scalar":
                raise Problem(path, "the name of a member is a text")
            if key.value in out:
                document.lines[path + (key.value,)] = key.start_mark.line + 1
                raise Problem(path + (key.value,), "this member stands twice in its object")
            out[key.value] = value_of(member, path + (key.value,), document)
            document.lines[path + (key.value,)] = key.start_mark.line + 1
        return out
    word = node.tag.rpartition(":")[2]
    if word == "null":
        return None
    if word == "bool":
        return node.value == "true"
    return plain_number(node.value) if word == "float" else node.value


def read_document(name, data):
    """The document of the bytes of a file: JSON where its name ends so or the text begins with a brace, else YAML."""
    try:
        text = data.decode("utf-8-sig")
    except UnicodeDecodeError as fault:
        at = Document(name, None, {(): data[:fault.start].count(b"\n") + 1})
        raise Problem((), "this isn't UTF-8", at) from None
    braced = text.lstrip()[:1] in ("{", "[") and not name.endswith((".yaml", ".yml"))
    read = read_json if braced or name.endswith(".json") else read_yaml
    try:
        document = read(name, text)
    except Problem as problem:
        problem.document = problem.document or Document(name, None, {})
        raise
    for path, part in texts(document.value, ()):
        if any("\ud800" <= character <= "\udfff" for character in part):
            raise Problem(path, "a text here has half of a surrogate pair, which UTF-8 can't write", document)
    return document


def texts(value, path):
    """The texts in a value, names of members too, with their paths."""
    if isinstance(value, str):
        yield path, value
    elif isinstance(value, list):
        for place, one in enumerate(value):
            yield from texts(one, path + (place,))
    elif isinstance(value, dict):
        for key, one in value.items():
            yield path, key
            yield from texts(one, path + (key,))


def to_json(value):
    """A value as JSON in one line, without spaces; numbers stand as they were written."""
    if isinstance(value, Number):
        return str(value)
    if isinstance(value, dict):
        members = (f"{json.dumps(key, ensure_ascii=False)}:{to_json(member)}" for key, member in value.items())
        return "{" + ",".join(members) + "}"
    if isinstance(value, list):
        return "[" + ",".join(map(to_json, value)) + "]"
    return json.dumps(value, ensure_ascii=False)
