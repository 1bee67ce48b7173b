#!/usr/bin/env python3
"""tools/draw_crates.py [--group | --check]: draws the crates by layer, from crates.txt.

It writes the picture docs/crates.svg and, between its two marks, the table of layers in docs/ARCHITECTURE.md. With --check it
writes nothing, and tells whether both are as it would write them. A layer is a comment `# == LAYER: SENTENCE` in crates.txt with
the lines of its crates below it; where crates.txt has none, the layers are those of LAYERS. With --group it puts the lines of
crates.txt in order under such comments, and then draws.
"""

import fnmatch
import html
import sys

import crates

SVG = crates.HOME / "docs/crates.svg"
PAGE = crates.HOME / "docs/ARCHITECTURE.md"
MARKS = "<!-- layers: written by tools/draw_crates.py -->", "<!-- end of layers -->"

# The layers, lowest first: their names, what they are, and their crates. A pattern stands for all that fit and have no place of
# their own.
LAYERS = [
    ("Base", "Texts, lists, shared values, keys, addresses, draws, and the traits of what is outside.", "xc_base xc_keys line_output"),
    ("Messages", "Frames of a byte stream, protobuf's fields, and the messages as they stand on the wire.",
     "grpc_framing proto_wire proto_discovery proto_route proto_listener proto_cluster"),
    ("Names and values", "The bootstrap, names and targets; weights and header rules; the checked values and the configuration.",
     "xds_bootstrap xds_name weight_pick header_match xds_config"),
    ("Checks", "What a resource says after its checks, or the reason of its refusal.",
     "check_steps check_routes check_clusters resource_check"),
    ("Streams and fates", "One authority's stream, the timers of awaited resources, and what is known of each watched resource.",
     "ads_stream watch_timers xds_cache"),
    ("Configuration", "What is reached and watched, and the whole configuration; what calls refer to; where snapshots are kept.",
     "aggregate_expand cluster_refs snapshot_store route_match config_assembly dep_manager"),
    ("Balancers", "Priorities with failover, localities by weight, endpoints in turn, and the tree of each cluster.",
     "priority_lb weighted_lb graceful_switch tree_steps cluster_tree"),
    ("Sessions and reports", "Events and answers, the text of a session, and the text of a report.",
     "call_journal session_lines session_script session_plan session_generator report_parts report_text report_writer totals_writer"),
    ("Definitions", "What a right history is, entry by entry, which histories are legal for a session, and laws of both.",
     "xds_history call_clusters legal_history session_shape legal_plan text_law report_law generated_law"),
    ("Parts of the Book", "One part of the atomic step each, against the definitions.",
     "book_progress book_streams book_fates book_calls book_trees book_picks book_hearing driver_step book_driver book_*"),
    ("Program", "The Book, on which all act, and the program that plays sessions on it.",
     "xds_book planned_calls channel_calls session_player xds_replay"),
    ("Tests", "Tests of the crates above, apart from them, so that a test that changes proves none of them again.", "*_tests"),
    ("Probes", "Programs that show what a library answers, for comparisons.", "probe_*"),
    ("Benches", "Programs that do work again and again, for timing.", "bench_*"),
]

WIDTH, LEFT, GAP = 1180, 206, 10
BOX, LETTER, LINE = 232, 6.3, 14
# The layers that are no part of the product.
APART = "Tests", "Probes", "Benches"
CAPTION = "In small letters what a crate stands on directly; below that it stands on what these stand on. Dashed layers are no part of the product."


def place_of(name):
    """The place of a crate's layer and its place in it, or the one after all layers."""
    for layer, (_, _, words) in enumerate(LAYERS):
        if name in words.split():
            return layer, words.split().index(name)
    for layer, (_, _, words) in enumerate(LAYERS):
        if any(fnmatch.fnmatch(name, word) for word in words.split()):
            return layer, len(words)
    return len(LAYERS), 0


def grouped(text):
    """crates.txt with its lines in order under the comments of their layers; within a pattern by name."""
    known = crates.read_crates(text)
    order = sorted(known, key=lambda name: (place_of(name), name))
    out = ["# The crates by layer, lowest first: `python3 tools/draw_crates.py` draws them. A line has a crate and the libraries it uses."]
    for layer, (name, sentence, _) in enumerate(LAYERS):
        lines = [known[it].line for it in order if place_of(it)[0] == layer]
        if lines:
            out += ["", f"# == {name}: {sentence}", *lines]
    other = [known[it].line for it in order if place_of(it)[0] == len(LAYERS)]
    if other:
        out += ["", "# == Other: Crates whose layer tools/draw_crates.py doesn't name yet.", *other]
    return "\n".join(out) + "\n"


def direct(known, name):
    """The crates of this repository that a crate stands on and that no other crate below it stands on."""
    uses = [it for it in known[name].uses if it in known]
    lower = {low for it in uses for low in crates.below(known, it) if low != it}
    return [it for it in uses if it not in lower]


def wrapped(words, most):
    """Words joined by commas, in lines of at most so many letters."""
    lines = [""]
    for place, word in enumerate(words):
        word += "," if place < len(words) - 1 else ""
        if lines[-1] and len(lines[-1]) + 1 + len(word) > most:
            lines.append("")
        lines[-1] += (" " if lines[-1] else "") + word
    return lines


def layers_of(known):
    """The layers in the order of crates.txt, each with its crates."""
    layers = {}
    for crate in known.values():
        if crate.group:
            layers.setdefault(crate.group.name, (crate.group.sentence, []))[1].append(crate.name)
    return layers


def draw_layer(known, name, sentence, members, top):
    """The drawing of a layer at this height, and its own height."""
    out, across = [], (WIDTH - LEFT) // (BOX + GAP)
    most = int((BOX - 16) / LETTER)
    texts = {it: wrapped(direct(known, it), most) if direct(known, it) else [] for it in members}
    y = top + GAP
    for start in range(0, len(members), across):
        row = members[start:start + across]
        height = 28 + LINE * max(len(texts[it]) for it in row)
        for place, it in enumerate(row):
            x = LEFT + place * (BOX + GAP)
            out.append(f'<rect class="box" x="{x}" y="{y}" width="{BOX}" height="{height}" rx="5"/>')
            out.append(f'<text class="crate" x="{x + 8}" y="{y + 18}">{html.escape(it)}</text>')
            for line, text in enumerate(texts[it]):
                out.append(f'<text class="uses" x="{x + 8}" y="{y + 34 + line * LINE}">{html.escape(text)}</text>')
        y += height + GAP
    title = [f'<text class="layer" x="12" y="{top + 24}">{html.escape(name)}</text>']
    for line, text in enumerate(wrapped_words(sentence, 27)):
        title.append(f'<text class="uses" x="12" y="{top + 42 + line * LINE}">{html.escape(text)}</text>')
    height = max(y - top, 42 + LINE * len(wrapped_words(sentence, 27)))
    kind = "apart" if name in APART else "band"
    band = f'<rect class="{kind}" x="4" y="{top}" width="{WIDTH - 8}" height="{height}" rx="7"/>'
    return [band, *title, *out], height


def wrapped_words(sentence, most):
    """A sentence in lines of at most so many letters."""
    lines = [""]
    for word in sentence.split():
        if lines[-1] and len(lines[-1]) + 1 + len(word) > most:
            lines.append("")
        lines[-1] += (" " if lines[-1] else "") + word
    return lines


def picture(known):
    """The picture: the layers from above, the highest first, and in each box what the crate stands on directly."""
    out, top = [f'<text class="uses" x="12" y="18">{CAPTION}</text>'], 28
    for name, (sentence, members) in reversed(layers_of(known).items()):
        drawn, height = draw_layer(known, name, sentence, members, top)
        out += drawn
        top += height + 8
    style = (
        "text{font-family:DejaVu Sans,Helvetica,Arial,sans-serif}.crate{font-size:13px;font-weight:bold;fill:#1b2a41}"
        ".uses{font-size:10.5px;fill:#5a6472}.layer{font-size:15px;font-weight:bold;fill:#1b2a41}"
        ".band{fill:#eef2f9;stroke:#d5dbe5}.apart{fill:#fafafa;stroke:#d9d9d9;stroke-dasharray:5 3}.box{fill:#ffffff;stroke:#9fb0c8}"
    )
    head = f'<svg xmlns="http://www.w3.org/2000/svg" viewBox="0 0 {WIDTH} {top}" width="{WIDTH}" height="{top}">'
    return "\n".join([head, "<title>The crates by layer</title>", f"<style>{style}</style>",
                      f'<rect width="{WIDTH}" height="{top}" fill="#ffffff"/>', *out, "</svg>", ""])


def table(known):
    """The table of layers: each crate leads to its README, where it has one, else to its folder."""
    lines = ["| Layer | What it is | Crates |", "|---|---|---|"]
    for name, (sentence, members) in layers_of(known).items():
        links = []
        for it in members:
            readme = crates.HOME / "crates" / it / "README.md"
            links.append(f"[`{it}`](../crates/{it}{'/README.md' if readme.exists() else ''})")
        lines.append(f"| {name} | {sentence} | {', '.join(links)} |")
    return "\n".join(lines)


def page_with(page, text):
    """The page with this text between its marks."""
    before, _, rest = page.partition(MARKS[0])
    _, _, after = rest.partition(MARKS[1])
    return f"{before}{MARKS[0]}\n{text}\n{MARKS[1]}{after}"


def main():
    if sys.argv[1:] not in ([], ["--group"], ["--check"]):
        sys.exit("usage: python3 tools/draw_crates.py [--group | --check]")
    file = crates.HOME / "crates.txt"
    if sys.argv[1:] == ["--group"]:
        file.write_text(grouped(file.read_text()))
    known = crates.crates_of_repository()
    if not any(crate.group for crate in known.values()):
        known = crates.read_crates(grouped(file.read_text()))
    wanted = {SVG: picture(known), PAGE: page_with(PAGE.read_text(), table(known))}
    if sys.argv[1:] == ["--check"]:
        stale = [it.name for it in wanted if not it.exists() or it.read_text() != wanted[it]]
        without = [it for it, crate in known.items() if not crate.group]
        for it in stale:
            print(f"docs/{it} isn't what tools/draw_crates.py writes of crates.txt")
        if without:
            print(f"crates.txt has no layer for: {', '.join(without)}")
        sys.exit(1 if stale or without else 0)
    for it, text in wanted.items():
        it.write_text(text)


if __name__ == "__main__":
    main()
