# Checks the rows of tests/resource_rows.txt: the check of resources answers each of them as its row says.
set -euo pipefail
cd "$(dirname "$0")/.."
probe=$(bash tools/built.sh probe_resource)
python3 tests/resource_rows.py "$probe" | sed "s/^/check_resources: /"
