# Compares the reports of the program with 400 recorded ones, and, where there is a reference program, with it over worked
# sessions, 10,000 random ones of at most 60 lines and 300 of at most 300 lines, of which each eighth is played with some damage
# too: they are byte for byte the same.
set -euo pipefail
cd "$(dirname "$0")/.."
. tests/reference.sh
compare_with_reference compare_histories xds_replay
