"""Copies crates without the contracts of their functions and without comments.

What runs stays as it is, and each line keeps its number. The compiler reads such a copy in a part of the time, since it
needn't understand the contracts. Ghost items stay, since a block that lacks one is refused.
"""

import re

TOKEN = re.compile(
    r"""
    (?P<kept>"(?:[^"\\]|\\.)*"|'(?:[^'\\\n]|\\(?:u\{[^}]*\}|x..|.))')
    |(?P<comment>//[^\n]*)
    |(?P<clause>\b(?:requires|ensures)\b\*?\s*(?:\w+\s*)?(?=\{))
    """,
    re.VERBOSE | re.DOTALL,
)
BRACE = re.compile(r"//[^\n]*|[{}]")
UNREAD = re.compile(r'/\*|\bb?r#*"')


def end_of(text, start):
    """Where the braces that are opened here are closed."""
    depth = 0
    for found in BRACE.finditer(text, start):
        depth += {"{": 1, "}": -1}.get(found[0], 0)
        if depth == 0 and found[0] == "}":
            return found.end()
    return len(text)


def bare(text):
    """A source without contracts and comments, line for line; one with forms of comments and strings that aren't read here
    stays whole."""
    if UNREAD.search(text):
        return text
    parts, at = [], 0
    while found := TOKEN.search(text, at):
        end = end_of(text, found.end()) if found["clause"] else found.end()
        cut = text[found.start() : end]
        parts += [text[at : found.start()], cut if found["kept"] else "\n" * cut.count("\n")]
        at = end
    return "".join(parts) + text[at:]


def copy_bare(home, chosen, to):
    """Copies the code of these crates, and writes crates.txt with their lines."""
    to.mkdir(parents=True)
    (to / "crates.txt").write_text("".join(f"{it.line}\n" for it in chosen))
    for crate in chosen:
        for file in (home / "crates" / crate.name / "src").rglob("*.rt"):
            copy = to / file.relative_to(home)
            copy.parent.mkdir(parents=True, exist_ok=True)
            copy.write_text(bare(file.read_text()))
