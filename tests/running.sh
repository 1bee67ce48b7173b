# For the checks that run the program: each run's status, standard output and standard error are compared with
# those that are wanted. The variable `program` has the program's path.
room=$(mktemp -d)
trap 'rm -rf "$room"' EXIT
bad=0 good=0

# ran NAME STATUS OUT ERR WORD..: runs the program with these words on standard input; OUT and ERR are files.
ran() {
  local name=$1 status=$2 out=$3 err=$4 got=0
  shift 4
  "$program" "$@" >"$room/out" 2>"$room/err" || got=$?
  if [ "$got" = "$status" ] && cmp -s "$out" "$room/out" && cmp -s "$err" "$room/err"; then
    good=$((good + 1))
    return
  fi
  bad=$((bad + 1))
  echo "$name: status $got, where $status is wanted; what it wrote differs so:"
  diff "$out" "$room/out" | head -5 || true
  diff "$err" "$room/err" | head -5 || true
}

# refused NAME STATUS MESSAGE WORD..: runs the program with these words; it says the message on standard error, and writes
# nothing to standard output.
refused() {
  local name=$1 status=$2
  echo "$3" >"$room/message"
  shift 3
  ran "$name" "$status" /dev/null "$room/message" "$@"
}

# told CHECK: how many runs were as wanted; the status is 1 where one wasn't.
told() {
  echo "$1: $good good, $bad bad"
  [ "$bad" = 0 ]
}
