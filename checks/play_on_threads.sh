# Plays sessions as they are, where other checks give them gates that leave the order of their lines: each of examples/
# five times, in which each actor does what the stored report says; and, where there is a reference program, random ones of
# up to sixteen callers. Each report is legal by xds_judge, and by the reference. SESSIONS=N plays N random ones in place of
# 200; of 1,000 or more at least 30 in 100 stand in another order than that of their lines.
set -euo pipefail
cd "$(dirname "$0")/.."
program=$(bash tools/built.sh)
judge=$(bash tools/built.sh xds_judge)
if ! folder=$(python3 tools/reference.py 2>&1); then
  echo "play_on_threads: skipped but for the examples, since $folder"
  folder=
fi
python3 tests/threaded_sessions.py "$program" "$judge" ${folder:+"$folder"} | sed 's/^/play_on_threads: /'
