#!/usr/bin/env bash
# A step for continuous integration: it runs the suite of a chart against an implementation, keeps the verdict as JSON
# (docs/verdict.schema.json) beside the other results, and fails where the verdict is no pass. Where the status is neither
# 0 nor 1, RESULT holds no verdict, and the status is that of the program (docs/FORMATS.md, The program); it is 5 also where
# RESULT cannot be written.
#
#     examples/ci_step.sh PROGRAM CHART BOUND CUTS IMPLEMENTATION RESULT
#
# As a step of a workflow file:
#
#     - name: the monitor behaves as its chart
#       run: examples/ci_step.sh ./classtest monitor.chart 4 sensor.cuts built.table verdict.json
set -u
[ $# -eq 6 ] || { echo "six words: PROGRAM CHART BOUND CUTS IMPLEMENTATION RESULT; CUTS is a file or none" >&2; exit 2; }
program=$1 result=$6
: > "$result" || exit 5
"$program" json "$2" "$3" "$4" "$5" > "$result"
status=$?
case $status in
    0) python3 - "$result" <<'PY'
import json, sys
v = json.load(open(sys.argv[1]))
print(f"pass: {v['tests']} tests, bound {v['bound']}")
PY
        ;;
    1) python3 - "$result" <<'PY'
import json, sys
v = json.load(open(sys.argv[1]))
print(f"fail: test {v['test']} of {v['tests']}, step {v['step']}: expected {v['expected']}, got {v['got']}")
for number, vector in enumerate(v["word"], 1):
    print(f"  step {number}: {vector}")
PY
        ;;
    *) echo "no verdict, status $status" ;;
esac
exit $status
