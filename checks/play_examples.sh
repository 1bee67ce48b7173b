# Plays each session of examples/, gated into the order of its lines (tests/gating.py): the report is byte for byte the one
# that stands beside it.
set -eu
cd "$(dirname "$0")/.."
program=$(bash tools/built.sh)
. tests/running.sh

for session in examples/*.session; do
  name=${session%.session}
  ran "$name" 0 "$name.expected" /dev/null run < <(python3 tests/gating.py <"$session")
done
told play_examples
