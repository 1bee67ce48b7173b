# Goes from each example's description to its session, and from its session to a description and back, by
# tools/session.py: the sessions are byte for byte those of the examples. So do sessions that are cut, gated and escaped,
# recorded responses and config dumps; and wrong descriptions are told by their place.
set -eu
cd "$(dirname "$0")/.."
if ! command -v protoc >/dev/null; then
  echo "describe_sessions: skipped, since protoc isn't installed"
  exit
fi
# (Debian's modules are those of its own Python, which may stand behind another one)
while IFS= read -r python; do
  if "$python" -c 'import google.protobuf, yaml' 2>/dev/null; then
    exec "$python" tests/describe_sessions.py </dev/null
  fi
done < <(type -a -p python3)
echo "describe_sessions: skipped, since no python3 has the modules google.protobuf and yaml"
