# Plays damaged inputs, the same ones at each run: resources, messages and frames in long sessions, bootstraps and sessions.
# What the program answers is what a reference program answers, where there is one; else each session has a report that ends,
# or is refused by a named cause. An input with another answer is kept in a file that is named. `tools/fuzz.py` plays more.
set -euo pipefail
cd "$(dirname "$0")/.."
XDS_REPLAY=$(bash tools/built.sh)
export XDS_REPLAY
status=0
while read -r kind count; do
  python3 tools/fuzz.py --kind "$kind" --count "$count" --batch "$count" --keep "${TMPDIR:-/tmp}/play_damaged_$kind.session" |
    sed 's/^/play_damaged: /' || status=1
done <<'KINDS'
push 4000
frame 2000
bootstrap 60
session 60
KINDS
exit "$status"
