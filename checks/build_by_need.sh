# Tests of tools/built.sh on a copy of the sources, with a small script in place of `rt`: what is built once is used again
# while no source that it is made of changes, with and without proof, and what fails is told. A kit that is laid out as the
# short way needs it is tried too: the short way reads code without contracts, its clang has the linker compile modules, its
# linker keeps the program, and where it fails the long way is taken.
set -eu
cd "$(dirname "$0")/.."
room=$(mktemp -d)
trap 'rm -rf "$room"' EXIT
bad=0 good=0
mkdir -p "$room/copy" "$room/bin" "$room/kit/bin" "$room/kit/c" "$room/kit/toolchain/bin"
git ls-files -z tools crates crates.txt | tar --null --ignore-failed-read -cf - -T - | tar -xf - -C "$room/copy"
cat >"$room/bin/rt" <<'STUB'
#!/usr/bin/env bash
# In place of `rt`: `run` and `try` make a program that says which of the two it is of, and how many there were before.
# In a copy of the sources it is the short way.
name=$(basename "$PWD") before=$(cat "$MADE" 2>/dev/null || echo 0) way=unproved
case $PWD in *out/unproved*) way=short ;; esac
program() {
  printf '#!/bin/sh\necho %s\n' "$1 $before" >"$2" && chmod +x "$2"
  echo $((before + 1)) >"$MADE"
}
case $1 in
  version) echo kit ;;
  lib) [ "$name" != "${FAILS:-}" ] ;;
  run) mkdir -p out && program proved "out/$name" ;;
  try)
    [ "$name" != "${FAILS:-}" ] && [ "$way" != "${FAILS:-}" ] || exit 2
    if [ "$way" = short ]; then
      clang=$(dirname "$(realpath "$0")")/../toolchain/bin/clang
      case $("$clang" -O1 -fsanitize=address -c -x ir a -o b) in '-m '*' --lto-O0 '*' a -o b') ;; *) exit 2 ;; esac
      [ "$("$clang" -O1 -c -x ir a -o b)" = '-O1 -c -x ir a -o b' ] || exit 2
      ! grep -rqE '^ *(requires|ensures) ' ../*/src || exit 2
    fi
    mkdir -p "$TMPDIR/rt-try/native" && program "$way" "$TMPDIR/rt-try/native/program"
    [ "$way" = unproved ] || "$(dirname "$clang")/ld.lld" a -o "$TMPDIR/rt-try/native/program" >&2
    for _ in $(seq 500); do
      sleep 0.02
      [ "$(stat -c %h "$TMPDIR/rt-try/native/program")" = 1 ] || break
    done
    rm -r "$TMPDIR/rt-try"
    echo 'run=ended status=3 runners=1 proved=no' >&2
    exit 3
    ;;
esac
STUB
chmod +x "$room/bin/rt"
export PATH=$room/bin:$PATH MADE=$room/made
unset XDS_REPLAY

# built NAME WANTED WORD..: the program that these words give says what is wanted; or standard error has it, after a fault.
built() {
  local name=$1 wanted=$2 got
  shift 2
  if got=$(bash "$room/copy/tools/built.sh" "$@" 2>"$room/err"); then got=$("$got"); else got=$(tail -n 1 "$room/err"); fi
  if [ "$got" = "$wanted" ]; then
    good=$((good + 1))
  else
    bad=$((bad + 1))
    echo "$name: '$got', where '$wanted' is wanted"
  fi
}

built 'the first time' 'unproved 0' --unproved xds_replay
built 'with no change' 'unproved 0' --unproved xds_replay
echo '// changed' >>"$room/copy/crates/weight_pick/src/lib.rt"
built 'a source below' 'unproved 1' --unproved xds_replay
echo '// changed' >>"$room/copy/crates/probe_session/src/main.rt"
built 'a source of another program' 'unproved 1' --unproved xds_replay
echo '-- changed' >>"$room/copy/crates/xc_base/specs/Lib.antt"
built 'a definition, which is no code' 'unproved 1' --unproved xds_replay
echo '// changed again' >>"$room/copy/crates/weight_pick/src/lib.rt"
FAILS=xds_replay built 'a source with a fault' "tools/built.sh: xds_replay isn't built" --unproved xds_replay
built 'after the fault' 'unproved 2' --unproved xds_replay
FAILS=xc_base built 'a crate that is not proved' "tools/built.sh: xds_replay isn't built" xds_replay
built 'with proof' 'proved 3' xds_replay
built 'proved, with no change' 'proved 3' xds_replay
built 'a proved one serves without proof too' 'proved 3' --unproved xds_replay
sleep 0.1
touch "$room/copy/crates/xc_base/specs/Lib.antt"
built 'a newer definition' 'proved 4' xds_replay
XDS_REPLAY=/bin/true built 'another program' '' xds_replay

# From here on the kit is laid out as the short way needs it.
cp "$room/bin/rt" "$room/kit/bin/rt"
for tool in clang ld.lld; do
  printf '#!/bin/sh\necho "$*"\n' >"$room/kit/toolchain/bin/$tool"
  chmod +x "$room/kit/toolchain/bin/$tool"
done
echo library >"$room/kit/c/asan.a"
export PATH=$room/kit/bin:$PATH
echo '// changed thrice' >>"$room/copy/crates/weight_pick/src/lib.rt"
built 'the short way' 'short 5' --unproved xds_replay
built 'the short way, with no change' 'short 5' --unproved xds_replay
echo '// changed a fourth time' >>"$room/copy/crates/weight_pick/src/lib.rt"
FAILS=short built 'where the short way fails' 'unproved 6' --unproved xds_replay
echo '// changed a fifth time' >>"$room/copy/crates/weight_pick/src/lib.rt"
FAILS=xds_replay built 'where both fail' "tools/built.sh: xds_replay isn't built" --unproved xds_replay
rm "$room/kit/c/asan.a"
built 'another kit, which is laid out otherwise' 'unproved 7' --unproved xds_replay

# bare WANTED SOURCE: the source without contracts, its lines joined by `/`.
bare() {
  local got
  got=$(printf "$2" | PYTHONPATH=tools python3 -c "import bare_sources, sys; print(end=bare_sources.bare(sys.stdin.read()))" |
    tr "\n" /)
  if [ "$got" = "$1" ]; then good=$((good + 1)); else bad=$((bad + 1)) && echo "bare: '$got', where '$1' is wanted"; fi
}

bare 'fn f() -> u8/    //{/    1/}/' 'fn f() -> u8\n    ensures one { result \n ≡ 1 }\n{\n    1\n}\n'
bare 'impl A {/    ghost view = { 1 };/}/' 'impl A {\n    ghost view = { 1 };\n}\n'
bare 'fn f();/' 'fn f()requires { a ≡ record { b = 1 } }ensures* two { b };\n'
bare "let a = \"requires { // }\"; let b = '{'; /" "let a = \"requires { // }\"; let b = '{'; // brace\n"
bare '/* more */ ensures { }' '/* more */ ensures { }'
echo "build_by_need: $good passed, $bad failed"
[ "$bad" = 0 ]
