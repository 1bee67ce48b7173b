# Judges reports with xds_judge: the stored reports of examples/ and of the corpus, those that xds_replay writes of the same
# sessions on threads, and damaged ones, which get the recorded answer, and, where there is a reference program, its answer:
# 100 of them, or as many as DAMAGED says. Each report of examples/damaged/ and of tests/judged/ is told as the file beside it
# says. Words that aren't two files, files that can't be read and bytes that are no session have their status and their message.
set -euo pipefail
cd "$(dirname "$0")/.."
program=$(bash tools/built.sh xds_judge)
replay=$(bash tools/built.sh)
if ! folder=$(python3 tools/reference.py 2>&1); then
  echo "judge_reports: no further damaged reports, since $folder"
  folder=
fi
. tests/running.sh

usage='usage: xds_judge SESSION REPORT'
session=examples/first_path.session report=examples/first_path.expected
ran 'a legal report' 0 /dev/null /dev/null "$session" "$report"
ran 'help' 0 <(echo "$usage") /dev/null --help
ran 'short help' 0 <(echo "$usage") /dev/null -h
refused 'no word' 2 "$usage"
refused 'one word' 2 "$usage" "$session"
refused 'three words' 2 "$usage" "$session" "$report" "$report"
refused 'a word that is no text' 2 "$usage" "$session" $'\xff'
refused 'no session' 3 'xds_judge: session line 1: header' "$report" "$report"
refused 'no such session' 4 'xds_judge: read fault' examples/none.session "$report"
refused 'no such report' 4 'xds_judge: read fault' "$session" examples/none.expected
refused 'a folder' 4 'xds_judge: read fault' "$session" examples
refused 'an empty report' 1 'line 1: nothing, a legal one has: xds-report 1' "$session" /dev/null
told judge_reports

python3 tests/judged_reports.py "$program" "$replay" ${folder:+"$folder"} | sed 's/^/judge_reports: /'
