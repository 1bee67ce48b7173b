# Reads the documents: each relative link, and each path in code that looks like a file of this repository, is there; each
# link to a heading finds it; each call and each clause that a table of a crate's README names is one of its sources or
# definitions; no document has a paragraph above eighty words, and the README at most 150 lines; and the picture and the table
# of crates are those of crates.txt.
set -eu
cd "$(dirname "$0")/.."
python3 tests/read_docs.py
