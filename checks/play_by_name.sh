# Tests of tools/play.sh, with a small script in place of the program: what it refuses before anything is built, which session
# is played, and that the status and standard error are the program's.
set -eu
cd "$(dirname "$0")/.."
room=$(mktemp -d)
trap 'rm -rf "$room"' EXIT
bad=0 good=0

# played NAME STATUS TEXT WORD..: plays with these words; the status is as told, and the output has the text.
played() {
  local name=$1 wanted=$2 text=$3 got=0
  shift 3
  bash tools/play.sh "$@" >"$room/out" 2>&1 </dev/null || got=$?
  if [ "$got" = "$wanted" ] && grep -qF -- "$text" "$room/out"; then
    good=$((good + 1))
  else
    bad=$((bad + 1))
    echo "$name: status $got, where $wanted is wanted, with: $text" && head -n 5 "$room/out"
  fi
}

# No program is there: what is answered here is answered before anything is built.
export XDS_REPLAY=no/such/program
played 'help' 0 'usage: ' -h
played 'help, with the examples' 0 'switch_waits_for_ready' --help
played 'no word' 2 'usage: '
played 'an unknown name' 2 'nonsense is no example and no file' nonsense
played 'an unknown name, with the examples' 2 'switch_waits_for_ready' nonsense
played 'an unknown option' 2 '--best is no option' --best first_path
played 'two sessions' 2 'one session is played, and not 2' first_path first_path
played 'a folder' 2 'is a folder' examples
played 'no session' 3 "isn't a session" README.md

bash tools/play.sh -h >"$room/help"
for session in examples/*.session; do
  name=$(basename "$session" .session)
  grep -q "^  $name " "$room/help" || {
    bad=$((bad + 1))
    echo "$name isn't listed"
  }
done

# The program tells how it was called and how many lines it was given, and refuses what has the word `time`.
cat >"$room/program" <<'STUB'
#!/usr/bin/env bash
session=$(cat)
if grep -q time <<<"$session"; then
  echo 'xds_replay: session line 5: time' >&2
  exit 3
fi
echo "$* of $(wc -l <<<"$session") lines"
STUB
chmod +x "$room/program"
export XDS_REPLAY=$room/program
head -4 examples/no_events.session >"$room/short.session"
(cat "$room/short.session" && echo 'd time 5') >"$room/refused.session"
echo 'd sweep' >"$room/none.session"

played 'an example' 0 'run of 12 lines' first_path
played 'an example by its file' 0 'run of 12 lines' examples/first_path.session
played 'a session of a file' 0 'run of 4 lines' "$room/short.session"
played 'a session that is refused' 3 'xds_replay: session line 5: time' "$room/refused.session"
played 'a file that is no session' 3 "isn't a session" "$room/none.session"
got=$(bash tools/play.sh - <"$room/short.session")
if [ "$got" = 'run of 4 lines' ]; then good=$((good + 1)); else bad=$((bad + 1)) && echo "standard input: $got"; fi
got=$(cd examples && bash ../tools/play.sh first_path.session)
if [ "$got" = 'run of 12 lines' ]; then good=$((good + 1)); else bad=$((bad + 1)) && echo "from another folder: $got"; fi
echo "play_by_name: $good passed, $bad failed"
[ "$bad" = 0 ]
