"""The text of a description, as YAML with the numbers of the session's lines, or as JSON."""

import json

from describing.places import Missing

WIDEST = 100


def yaml_text(head, events):
    """The description as YAML. Small objects and lists stand in one line."""
    try:
        import yaml
    except ImportError:
        raise Missing("the module yaml", "python3-yaml") from None
    writer = Writer(yaml)
    out = [writer.text(head)]
    out.append("events:\n" if events else "events: []\n")
    for event in events:
        out += [f"# {comment}\n" for comment in event.comments]
        first, _, rest = writer.text([event.members]).partition("\n")
        last = f" to {event.last}" if event.last != event.first else ""
        out.append(f"{first}  # line{'s' if last else ''} {event.first}{last}\n{rest}")
    return "".join(out)


def json_text(head, events):
    """The description as JSON."""
    return json.dumps({**head, "events": [event.members for event in events]}, indent=1, ensure_ascii=False) + "\n"


class Writer:
    """Writes values as YAML."""

    def __init__(self, yaml):
        self.yaml = yaml

    def text(self, value):
        node, _ = self.node(value, 0)
        node.flow_style = False
        if isinstance(value, list) and "data" not in value[0] and len(value[0]) > 1:
            node.value[0].flow_style = True
        dumper = getattr(self.yaml, "CSafeDumper", self.yaml.SafeDumper)
        return self.yaml.serialize(node, Dumper=dumper, width=1 << 30, allow_unicode=True)

    def node(self, value, depth):
        """The node of a value, and about how wide it is in one line."""
        tag = "tag:yaml.org,2002:"
        if isinstance(value, dict):
            pairs = [(self.node(key, depth + 1), self.node(member, depth + 1)) for key, member in value.items()]
            width = sum(key[1] + member[1] + 4 for key, member in pairs) + 2
            return self.yaml.MappingNode(tag + "map", [(key[0], member[0]) for key, member in pairs],
                                         flow_style=self.is_flow(width, depth, value)), width
        if isinstance(value, list):
            nodes = [self.node(member, depth + 1) for member in value]
            width = sum(one[1] + 2 for one in nodes) + 2
            return self.yaml.SequenceNode(tag + "seq", [one[0] for one in nodes],
                                          flow_style=self.is_flow(width, depth, value)), width
        if value is None:
            return self.yaml.ScalarNode(tag + "null", ""), 0
        if isinstance(value, bool):
            return self.yaml.ScalarNode(tag + "bool", "true" if value else "false"), 5
        if isinstance(value, int):
            return self.yaml.ScalarNode(tag + "int", str(value)), len(str(value))
        style = None if value.isprintable() else '"'
        return self.yaml.ScalarNode(tag + "str", value, style=style), len(value)

    @staticmethod
    def is_flow(width, depth, value):
        """Whether a collection stands in one line: one that is narrow and far enough in, or empty."""
        return not value or width + 2 * depth <= WIDEST and depth > 3 or width <= 40 and depth > 1
