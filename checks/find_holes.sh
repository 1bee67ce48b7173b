# Searches the crates for what would be taken on trust: `unsafe`, an axiom, an ignored test, an `Abort`
# outside tests. None may stand there. (A hole in a proof is refused by the gate.)
set -eu
cd "$(dirname "$0")/.."
found=$(git grep -nE '\b(unsafe|axiom|postulate)\b|#\[ignore' -- 'crates/*.rt' 'crates/*.antt' |
  grep -vE ':[0-9]+:\s*(//|--)' || true)
aborts=$(git grep -nE '\bAbort\b' -- 'crates/*.rt' | grep -vE '(^|/)[a-z_]*tests(\.rt|/)|:[0-9]+:\s*//' || true)
if [ -n "$found$aborts" ]; then
  printf '%s\n' "$found" "$aborts" | sed '/^$/d; s/^/find_holes: /'
  exit 1
fi
echo "find_holes: none in $(git ls-files 'crates/*.rt' 'crates/*.antt' | wc -l) files"
