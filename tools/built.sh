# tools/built.sh [--unproved] [NAME]: prints the path of a program of this repository, xds_replay where no name is given.
# It is proved and built first where a source that it is made of is newer than it; standard error tells which crate of how
# many is at work. With --unproved and without a proved program that is new enough, it is built without any proof, and kept
# in out/unproved. XDS_REPLAY=PROGRAM, and so on with the name in capitals, gives another program in its place.
set -eu
proof=yes
if [ "${1:-}" = --unproved ]; then
  proof=no
  shift
fi
name=${1:-xds_replay}
given=$(tr '[:lower:]' '[:upper:]' <<<"$name")
if [ -n "${!given:-}" ]; then
  realpath -- "${!given}"
  exit
fi
cd "$(dirname "$0")/.."
program=crates/$name/out/$name
order=$(python3 tools/crates.py "$name")
mapfile -t crates <<<"$order"

# newer: a source that the program is made of and that is newer than it.
newer() {
  find crates.txt "${crates[@]/#/crates/}" -name out -prune -o -name must-fail -prune -o \
    \( -name '*.rt' -o -name '*.antt' -o -name crates.txt \) -newer "$program" -print -quit
}

# prove: proves each crate, lowest first, and builds the program.
prove() {
  local count=${#crates[@]} at=0 place crate words
  echo "tools/built.sh: $count crates are proved, at one to three minutes each where nothing is proved yet" >&2
  for crate in "${crates[@]}"; do
    at=$((at + 1))
    echo "tools/built.sh: crate $at of $count, $crate" >&2
    if [ "$crate" = "$name" ]; then
      mapfile -t words <"crates/$crate/args"
      for place in "${!words[@]}"; do  # (a file of its folder data/ is named from where it is run here)
        [ ! -e "crates/$crate/data/${words[place]}" ] || words[place]=data/${words[place]}
      done
      (cd "crates/$crate" && rt run -- "${words[@]}" <stdin >/dev/null) || return 1
    else
      (cd "crates/$crate" && rt lib) >&2 || return 1
    fi
  done
}

if [ -x "$program" ] && [ -z "$(newer)" ]; then
  realpath -- "$program"
elif [ "$proof" = no ]; then
  python3 tools/try_build.py "$name"
elif prove; then
  realpath -- "$program"
else
  echo "tools/built.sh: $name isn't built" >&2
  exit 1
fi
