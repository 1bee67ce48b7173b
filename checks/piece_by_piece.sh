# Hands each session of examples/, and some that are refused, to the program byte by byte through a pipe, and takes the reports
# byte by byte: they are those of examples/.
set -eu
cd "$(dirname "$0")/.."
python3 tests/piece_by_piece.py "$(bash tools/built.sh)"
