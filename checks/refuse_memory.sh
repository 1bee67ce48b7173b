# Lets requests of the program to the system fail, one in each run: of four worked sessions some requests for memory, spread
# evenly, and all reads and writes; of a session of two callers each start of a thread; and of a session whose report takes
# many writes each write. Each run ends by the named cause after a prefix of the report, or with the full report.
set -euo pipefail
cd "$(dirname "$0")/.."
XDS_REPLAY=$(bash tools/built.sh)
export XDS_REPLAY
room=$(mktemp -d)
trap 'rm -rf "$room"' EXIT
status=0
python3 tools/refuse_memory.py --sample 16 | sed 's/^/refuse_memory: /' || status=1

# (a caller whose thread can't be started is played by the driver's thread)
python3 tools/refuse_memory.py --kind thread --least 1 two_callers | sed 's/^/refuse_memory: /' || status=1

# (a report of 2 MB, which the program hands on 64 KiB at a time)
python3 tools/large_sessions.py calls 20000 >"$room/calls.session"
python3 tools/refuse_memory.py --kind write --least 20 "$room/calls.session" | sed 's/^/refuse_memory: /' || status=1
exit "$status"
