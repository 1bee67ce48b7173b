# Compares the reading of sessions with 200 recorded answers, and, where there is a reference program, with it over 5,000
# random and damaged sessions: both tell the same line and cause.
set -euo pipefail
cd "$(dirname "$0")/.."
. tests/reference.sh
compare_with_reference compare_sessions probe_session
