# Runs each command with a sink that takes nothing: short and long reports end with status 5 and `write fault`.
set -eu
cd "$(dirname "$0")/.."
if [ ! -c /dev/full ]; then
  echo "full_disk: skipped, since there is no /dev/full"
  exit
fi
program=$(bash tools/built.sh)
. tests/running.sh
echo 'xds_replay: write fault' >"$room/message"
python3 tools/large_sessions.py calls 5000 >"$room/long.session"

# full NAME WORD..: runs these words on standard input with a full disk.
full() {
  local name=$1 got=0
  shift
  "$program" "$@" >/dev/full 2>"$room/err" || got=$?
  if [ "$got" = 5 ] && cmp -s "$room/message" "$room/err"; then
    good=$((good + 1))
  else
    bad=$((bad + 1))
    echo "$name: status $got, and $(head -n 1 "$room/err")"
  fi
}

full 'a short report' run <examples/no_events.session
full 'a report' run <examples/first_path.session
full 'a long report' run <"$room/long.session"
full 'a short generated session' gen 1 </dev/null
full 'a long generated session' gen 1000 </dev/null
full 'totals' load 1 </dev/null
told full_disk
