# Compares the check of resources with 300 recorded answers, and, where there is a reference program, with it over 5,000
# random and damaged resources: both tell the same value or reason.
set -euo pipefail
cd "$(dirname "$0")/.."
. tests/reference.sh
compare_with_reference compare_resources probe_resource
