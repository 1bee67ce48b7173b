"""Reads the documents of the repository, for checks/read_docs.sh."""

import pathlib
import re
import subprocess
import sys

HOME = pathlib.Path(__file__).resolve().parent.parent
MOST_LINES, MOST_WORDS = 150, 80
# The folders whose files a path in code names; * and NAME stand for any.
FOLDERS = "bench checks crates docs examples tests tools .ci".split()
TOP = "README.md CONTRIBUTING.md LICENSE HANDLES crates.txt".split()
LINK = re.compile(r"(?<!\\)\]\(([^)\s]+)\)|^\[[^\]]+\]: (\S+)", re.M)
CODE = re.compile(r"`([^`\n]+)`")
# Clauses that std's traits and derives have, and that a crate only keeps.
OF_STD = "is_clone from_gives".split()
FENCE = re.compile(r"^(```|~~~).*?^\1\s*$", re.M | re.S)
INDENTED = re.compile(r"^    .*$", re.M)


def documents():
    """The documents that git knows, or that are new."""
    words = ["git", "ls-files", "--cached", "--others", "--exclude-standard", "--", "*.md"]
    found = subprocess.run(words, cwd=HOME, stdout=subprocess.PIPE, check=True, text=True).stdout
    return [HOME / it for it in found.splitlines() if (HOME / it).exists()]


def anchors(text):
    """The anchors of a document's headings."""
    heads = re.findall(r"^#+ (.+)$", FENCE.sub("", text), re.M)
    return {re.sub(r"[^\w -]", "", head.replace("`", "")).strip().lower().replace(" ", "-") for head in heads}


def link_fault(file, link):
    """What is wrong with a link, if something is."""
    if re.match(r"[a-z]+:", link):
        return None
    path, _, anchor = link.partition("#")
    target = (file.parent / path).resolve() if path else file
    if not target.exists():
        return "no such file"
    if anchor and target.suffix == ".md" and anchor not in anchors(target.read_text()):
        return "no such heading"
    return None


def is_path(word):
    """Whether a word of code looks like a path of this repository."""
    head = word.split("/")[0]
    return word in TOP or ("/" in word and head in FOLDERS and re.fullmatch(r"[\w./*-]+", word) is not None)


def path_fault(word):
    """What is wrong with a path, if something is: one with * or a word in capitals has to find a file."""
    pattern = re.sub(r"\b[A-Z]{2,}\b(?!\.md)", "*", word.split("#")[0].rstrip("/"))
    if pattern in TOP or any(HOME.glob(pattern)):
        return None
    return "no such file"


def faults_of(file):
    """The faults of a document, and how many links and paths were looked at."""
    text = file.read_text()
    prose = FENCE.sub("", text)
    found, looked = [], 0
    for match in LINK.finditer(prose):
        looked += 1
        link = match.group(1) or match.group(2)
        found += [f"{link}: {fault}" for fault in [link_fault(file, link)] if fault]
    blocks = [it.group() for shape in (FENCE, INDENTED) for it in shape.finditer(text)]
    for code in CODE.findall(prose) + blocks:
        for word in filter(is_path, re.split(r"[\s,;]+", code)):
            looked += 1
            found += [f"`{word}`: {fault}" for fault in [path_fault(word)] if fault]
    return found, looked


def long_paragraphs(text):
    """The paragraphs above the limit, by their first words. A line of a table or of a list is one of its own."""
    text = re.sub(r"^( *[-*|]|\d+\.)", r"\n\1", FENCE.sub("", text), flags=re.M)
    parts = [re.sub(r"\]\([^)]*\)", "]", it).split() for it in re.split(r"\n\s*\n", text)]
    return [f"a paragraph of {len(it)} words: {' '.join(it[:6])} .." for it in parts if len(it) > MOST_WORDS]


def length_faults():
    """The documents' paragraphs that are too long, and a README that is."""
    found = [f"{file.relative_to(HOME)}: {it}" for file in documents() for it in long_paragraphs(file.read_text())]
    lines = len((HOME / "README.md").read_text().splitlines())
    return found + ([f"README.md: {lines} lines, above {MOST_LINES}"] if lines > MOST_LINES else [])


def clause_rows(readme):
    """What the tables of a crate's README say: some calls or laws, and their clauses. A row without a call goes on with those of
    the row above."""
    rows, head = [], None
    for line in readme.read_text().splitlines():
        cells = [cell.strip() for cell in line.strip("|").split("|")] if line.startswith("|") else None
        if not cells or not head:
            head = cells and [cell.lower() for cell in cells]
            continue
        calls = re.findall(r"`(?:[\w<>]+::)*(\w+)`", cells[0])
        if head[0] in ("call", "law") and (calls or not rows):
            rows.append((calls, []))
        if head[0] in ("call", "law") and head[1] == "clause":
            rows[-1][1].extend(re.findall(r"`(\w+)`", cells[1]))
    return rows


def functions_of(sources):
    """The functions of some sources, each with its clauses: the names of those that have one, and the first words of the others."""
    found = {}
    for text in sources:
        parts = re.split(r"\bfn (\w+)", re.sub(r"//.*", "", text))
        for name, after in zip(parts[1::2], parts[2::2]):
            found.setdefault(name, set()).update(re.findall(r"\bensures\*? (?:\{ *)?(\w+)", after))
    return found


def other_clauses(crate, sources):
    """The clauses of a crate that are of no function of its own: those of traits and of types, and the members of a record."""
    text = "\n".join(sources)
    records = "\n".join(it.read_text() for it in (crate / "specs").rglob("*.antt"))
    return {*re.findall(r"\bghost (\w+):", text), *re.findall(r"\bimpl\b[^\n]*?\b(\w+) for\b", text),
            *re.findall(r"^ +(?:pub )?([a-z_]+) :", records, re.M), *OF_STD}


def clause_faults():
    """The calls and clauses that a README names and no source of its crate has, and how many were looked at. A clause stands
    at one of the row's calls, where one of them is a function of the crate."""
    found, looked = [], 0
    for readme in sorted(HOME.glob("crates/*/README.md")):
        sources = [it.read_text() for it in (readme.parent / "src").rglob("*.rt")]
        functions, others = functions_of(sources), other_clauses(readme.parent, sources)
        for calls, named in clause_rows(readme):
            known = others.union(*(functions.get(call, ()) for call in calls))
            faults = [f"no function is named {call}" for call in calls if call.islower() and call not in functions]
            faults += [f"{' and '.join(calls)} has no clause {word}" for word in named if word not in known]
            looked += len(calls) + len(named)
            found += [f"{readme.relative_to(HOME)}: {it}" for it in faults]
    return found, looked


def main():
    passed = failed = 0
    for file in documents():
        found, looked = faults_of(file)
        passed, failed = passed + looked - len(found), failed + len(found)
        for fault in found:
            print(f"{file.relative_to(HOME)}: {fault}")
    found, looked = clause_faults()
    passed, failed = passed + looked - len(found), failed + len(found)
    for fault in found:
        print(fault)
    drawn = subprocess.run([sys.executable, HOME / "tools/draw_crates.py", "--check"], stdout=subprocess.PIPE, text=True)
    for faults in (length_faults(), drawn.stdout.splitlines()):
        passed, failed = passed + (not faults), failed + bool(faults)
        for fault in faults:
            print(fault)
    print(f"read_docs: {passed} passed, {failed} failed")
    return 1 if failed else 0


if __name__ == "__main__":
    sys.exit(main())
