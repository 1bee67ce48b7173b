# tools/play.sh [--proved] NAME|FILE|-: plays a session, and shows its report on standard output. NAME is one of the examples,
# FILE a session, and - is a session from standard input. The status is the program's. The program is built without proof
# where it isn't built yet; with --proved it is proved first.
set -eu
here=$(cd "$(dirname "$0")" && pwd -P)
examples=$here/../examples

# list_examples: each example with its sentence, from the index of the examples.
list_examples() {
  awk -F ' \\| ' '/^\| \[/ {
    split($1, link, /[][()]/)
    name = link[4]
    sub(/\.yaml$/, "", name)
    printf "  %-38s %s\n", name, $2
  }' "$examples/README.md"
}

usage() {
  echo "usage: bash tools/play.sh [--proved] NAME|FILE|-"
  echo "plays an example, the session of a file or one from standard input, and shows its report. --proved proves the"
  echo "program before, one to three minutes a crate where nothing is proved yet. The examples are:"
  list_examples
}

# refuse WHAT: says what is wrong with the words, and how they are meant.
refuse() {
  echo "tools/play.sh: $1" >&2
  usage >&2
  exit 2
}

proof=--unproved
while [ $# -gt 0 ]; do
  case $1 in
    -h | --help)
      usage || true
      exit
      ;;
    --proved) proof= ;;
    -?*) refuse "$1 is no option" ;;
    *) break ;;
  esac
  shift
done
[ $# -gt 0 ] || refuse "the name of an example, or a session, is missing"
[ $# -eq 1 ] || refuse "one session is played, and not $#"

room=$(mktemp -d)
trap 'rm -rf "$room"' EXIT
if [ "$1" = - ]; then
  cat >"$room/session"
else
  file=$examples/$1.session
  [ -e "$file" ] || file=$1
  [ -e "$file" ] || refuse "$1 is no example and no file"
  [ ! -d "$file" ] || refuse "$1 is a folder"
  cat -- "$file" >"$room/session" || exit 2
fi
if [ "$(head -c 64 "$room/session" | tr -d '\0' | head -n 1)" != 'xds-session 1' ]; then
  echo "tools/play.sh: $1 isn't a session, since its first line isn't 'xds-session 1'. docs/DESCRIPTIONS.md says how to" \
    "make one of a description, and docs/FORMATS.md has its form." >&2
  exit 3
fi

path=$(bash "$here/built.sh" $proof)
"$path" run <"$room/session"
