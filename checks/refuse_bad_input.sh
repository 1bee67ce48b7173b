# Runs the program on words that aren't a command and on bytes that aren't a session: each has its status and its named cause
# on standard error, and no part of a report. A source that fails is told apart from these.
set -eu
cd "$(dirname "$0")/.."
program=$(bash tools/built.sh)
. tests/running.sh

# at NAME LINE CAUSE
at() {
  refused "$1" 3 "xds_replay: session line $2: $3" run
}

usage='usage: xds_replay run | gen N | load N'
refused 'no word' 2 "$usage" </dev/null
refused 'another word' 2 "$usage" ran </dev/null
refused 'two words' 2 "$usage" run run </dev/null
refused 'help' 2 "$usage" --help </dev/null
refused 'a word that is no text' 2 "$usage" $'\xff' </dev/null
refused 'no rounds' 2 "$usage" gen </dev/null
for rounds in 0 1001 01 +1 1x '' ' 1'; do
  refused "gen of '$rounds'" 2 "$usage" gen "$rounds" </dev/null
  refused "load of '$rounds'" 2 "$usage" load "$rounds" </dev/null
done
refused 'a word more' 2 "$usage" load 1 1 </dev/null

head4=$(head -4 examples/no_events.session)
callers2=${head4/callers 1/callers 2}

# line CAUSE LINE..: a session of one caller whose last line is refused.
line() {
  local cause=$1
  shift
  at "$*" "$(($# + 4))" "$cause" < <(printf '%s\n' "$head4" "$@")
}

at 'nothing' 0 short </dev/null
at 'three lines' 0 short < <(head -3 examples/no_events.session)
at 'another header' 1 header < <(echo 'xds-session 2')
at 'a header that is no text' 1 text < <(printf '\xff\n')
at 'a bootstrap without servers' 2 boot < <(sed '2s/.*/boot {}/' examples/no_events.session)
at 'a bootstrap that is no JSON' 2 boot < <(sed '2s/.*/boot {/' examples/no_events.session)
at 'a target of another scheme' 3 target < <(sed '3s/.*/target dns:svc/' examples/no_events.session)
at 'a target of an authority that is not there' 3 target < <(sed '3s/.*/target xds:\/\/a\/svc/' examples/no_events.session)
for callers in 0 17 01 x ''; do
  at "callers $callers" 4 callers < <(sed "4s/.*/callers $callers/" examples/no_events.session)
done

line text 'd sweep' $'d open \xff'
line word ''
line word 'd sweep '
line word 'd  sweep'
line word 'D sweep'
line word 'd open - -'
line word 'd swept'
line word 'c 1 start 0 0'
line word 'd sweep' '@5 @5 d sweep'
line word $'d sweep\r'
line gate '@5 d sweep'
line gate '@4 d sweep'
line gate 'd sweep' '@05 d sweep'
line gate 'd sweep' '@ d sweep'
line gate '@99 d open +nobody'
line authority 'd open +nobody'
line authority 'd lost x'
line authority 'd data +nobody 0g'
line hex 'd open -' 'd data - 0'
line hex 'd data - 0g'
line hex 'd data - '
line number 'd time 1000000000001'
line number 'd time 05'
line number 'd time -1'
line number 'c 1 commit 65536'
line number 'c 1 pick 0 18446744073709551616'
line number 'c 1 start 00 0 /a'
line number 'c 9 commit 70000'
line number 'c x commit 0'
line time 'd time 5' 'd time 4'
line address 'd endpoint 10.0.0.256:80 ready'
line address 'd endpoint 10.0.0.1:0 ready'
line address 'd endpoint 10.0.0.1:080 ready'
line address 'd endpoint 10.0.0.1 up'
line address 'd endpoint ::1:80 ready'
line address 'd endpoint svc:80 ready'
line state 'd endpoint 10.0.0.1:80 up'
line caller 'c 0 commit 0'
line caller 'c 2 commit 0'
line caller 'c 99999999999999999999 start 0 0 a'
line call 'c 1 start 0 0 /a' 'c 1 start 0 0 /a'
line call 'c 1 start 0 0 /a' 'c 1 start 0 0 a'
at 'the call of another caller' 6 call < <(printf '%s\n' "$callers2" 'c 1 commit 0' 'c 2 commit 0')
line path 'c 1 start 0 0 a'
line path 'c 1 start 0 0 a x'
line field 'c 1 start 0 0 /a x'
line field 'c 1 start 0 0 /a =y'
line field 'c 1 start 0 0 /a X=y'
line field 'c 1 start 0 0 /a x=%ff'
line field "c 1 start 0 0 /a$(printf ' x=y%.0s' {1..65})"

zeros() { head -c "$1" /dev/zero | tr '\0' 0; }
at 'too many lines' 200001 lines < <(echo "$head4"; yes 'c 1 commit 0' | head -199997)
at 'too many lines of the driver' 20005 lines < <(echo "$head4"; yes '@x d' | head -20000 | sed 's/@x d/d sweep/'; echo '@x @y d')
at 'too many bytes of data' 6 bytes < <(printf '%s\nd open -\nd data - ' "$head4"; zeros 16777218)
at 'too many entries' 0 entries < <(printf '%s\nd open -\nd data - ' "$head4"; zeros 10485760)
at 'too many bytes' 0 size < <(head -c 67108865 /dev/zero)
refused 'a source that fails' 4 'xds_replay: read fault' run <.

# No prefix of a session has a part of a report, and most are no session.
for length in $(seq 0 29 "$(stat -c %s examples/first_fitting_route.session)"); do
  got=0
  head -c "$length" examples/first_fitting_route.session >"$room/prefix"
  "$program" run <"$room/prefix" >"$room/out" 2>"$room/err" || got=$?
  case $got in
    0) last=$(tail -1 "$room/out") && [ "${last%% *}" = end ] && [ ! -s "$room/err" ] ;;
    3) [ ! -s "$room/out" ] && [ "$(wc -l <"$room/err")" = 1 ] ;;
    *) false ;;
  esac && good=$((good + 1)) && continue
  bad=$((bad + 1))
  echo "the first $length bytes of first_fitting_route: status $got, and a wrong output"
done
told refuse_bad_input
