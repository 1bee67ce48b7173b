# Plays large sessions in a stack of 256 KiB: as many lines as a session may have, responses with many resources, routes and
# endpoints, and one that comes byte by byte. Each ends with status 0, with as many entries as its lines make.
set -eu
cd "$(dirname "$0")/.."
program=$(bash tools/built.sh)
. tests/running.sh

# large KIND SIZE ENTRIES: plays the session of this kind and size, which has so many entries.
large() {
  local got=0
  python3 tools/large_sessions.py "$1" "$2" >"$room/session"
  (ulimit -s 256 && exec "$program" run <"$room/session" >"$room/out" 2>"$room/err") || got=$?
  if [ "$got" = 0 ] && [ ! -s "$room/err" ] && [[ $(tail -n 1 "$room/out") == "end $3 "* ]]; then
    good=$((good + 1))
  else
    bad=$((bad + 1))
    echo "$1 $2: status $got, and the report ends with '$(tail -n 1 "$room/out")', where $3 entries are wanted"
    head -n 3 "$room/err"
  fi
}

large commits 199996 199997
large sweeps 20000 20001
large picks 65536 262154
large calls_by_routes 1000 3008
large pieces 19000 18892
large resources 20000 6
large endpoints 20000 10
large endpoint_responses 20 1072
for command in 'gen 1000' 'load 1000'; do
  got=0
  (ulimit -s 256 && exec "$program" $command </dev/null >"$room/out" 2>"$room/err") || got=$?
  if [ "$got" = 0 ] && [ -s "$room/out" ] && [ ! -s "$room/err" ]; then
    good=$((good + 1))
  else
    bad=$((bad + 1))
    echo "$command: status $got"
  fi
done
told small_stack
