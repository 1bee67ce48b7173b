# Counts the ways that lead down from the crates of crates.txt: at most 600,000 in all. A kit that goes through each of them anew,
# as `rt ci` of some kits does, would else take longer for that than for the proofs. CONTRIBUTING.md says how a crate names one
# that it doesn't list.
set -eu
cd "$(dirname "$0")/.."
most=600000
ways=$(python3 tools/crates.py --ways)
all=${ways%% *}
if [ "$all" -gt "$most" ]; then
  echo "few_ways: $all ways lead down from all crates, and $most may at most. Those that have most:"
  tail -n +2 <<<"$ways"
  exit 1
fi
echo "few_ways: $all ways lead down from all crates, of at most $most"
