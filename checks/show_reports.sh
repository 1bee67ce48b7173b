# Tests of tools/report.py, which shows reports: every report of examples/ is read, written back, and shown.
set -eu
cd "$(dirname "$0")/.."
python3 tests/report_tests.py
