# Plays sessions that a hostile server or a broken source could make: an empty response, an unreadable one, too many clusters,
# a resource that stands twice, chains of 16 and 17 clusters by many ways, and a session that is cut off in its bytes. Each
# has its end, and its lines of the report.
set -eu
cd "$(dirname "$0")/.."
python3 tests/hostile_table.py xds_replay | sed 's/^/hostile_table: /'
exit "${PIPESTATUS[0]}"
