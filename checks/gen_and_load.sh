# Runs the commands `gen` and `load`: the generated session of one round and the totals of 1 and of 1,000 rounds are byte
# for byte those of tests/generated; and `run` plays what `gen` writes, with as many entries and snapshots as `load` counts.
set -eu
cd "$(dirname "$0")/.."
program=$(bash tools/built.sh)
. tests/running.sh

ran 'gen 1' 0 tests/generated/gen_1.session /dev/null gen 1 </dev/null
for rounds in 1 1000; do
  ran "load $rounds" 0 "tests/generated/load_$rounds.expected" /dev/null load "$rounds" </dev/null
done

# plays ROUNDS: the generated session of so many rounds is played, and its report ends as the totals say.
plays() {
  local wanted got=0
  "$program" gen "$1" >"$room/session" || got=$?
  wanted=$("$program" load "$1" | awk '$1 == "entries" { entries = $2 } $1 == "snapshots" { print "end", entries, $2 }')
  "$program" run <"$room/session" >"$room/report" 2>"$room/err" || got=$?
  if [ "$got" = 0 ] && [ -n "$wanted" ] && [ ! -s "$room/err" ] && [ "$(tail -n 1 "$room/report")" = "$wanted" ]; then
    good=$((good + 1))
  else
    bad=$((bad + 1))
    echo "run of gen $1: status $got, and the report ends with '$(tail -n 1 "$room/report")', where '$wanted' is wanted"
  fi
}

plays 1
plays 2
plays 1000
told gen_and_load
