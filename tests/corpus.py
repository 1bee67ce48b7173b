"""The recorded corpus: what a reference program answered, so that comparisons need no reference.

Each file of tests/corpus/ is compressed by xz and has one JSON object a line, with bytes in base64. tools/record_corpus.py
writes them.
"""

import base64
import json
import lzma
import pathlib

FOLDER = pathlib.Path(__file__).resolve().parent / "corpus"


def path_of(name):
    """The file of a part of the corpus."""
    return FOLDER / f"{name}.jsonl.xz"


def write(name, rows):
    """Writes a part of the corpus: rows of texts, numbers and bytes. It gives the size in bytes."""
    FOLDER.mkdir(exist_ok=True)
    lines = (json.dumps({key: _encoded(value) for key, value in row.items()}, separators=(",", ":")) for row in rows)
    packed = lzma.compress("".join(line + "\n" for line in lines).encode(), preset=9 | lzma.PRESET_EXTREME)
    path_of(name).write_bytes(packed)
    return len(packed)


def read(name):
    """The rows of a part of the corpus."""
    for line in lzma.decompress(path_of(name).read_bytes()).decode().splitlines():
        yield {key: _decoded(value) for key, value in json.loads(line).items()}


def _encoded(value):
    return {"base64": base64.b64encode(value).decode()} if isinstance(value, bytes) else value


def _decoded(value):
    return base64.b64decode(value["base64"]) if isinstance(value, dict) else value
