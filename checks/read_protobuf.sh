# Compares the reading of responses and the writing of requests with protoc (Debian's protobuf-compiler)
# over 50 random messages.
set -eu
cd "$(dirname "$0")/.."
if ! command -v protoc >/dev/null; then
  echo "read_protobuf: skipped, since protoc isn't installed"
  exit
fi
show=$(bash tools/built.sh probe_discovery)
python3 tests/read_protobuf.py "$show"
