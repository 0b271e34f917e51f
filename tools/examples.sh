#!/usr/bin/env bash
# Runs each examples/NAME.script and compares what is printed with examples/NAME.want. The program is built without proofs here:
# the gate, which proves it, comes before.
set -u
top=$(cd "$(dirname "$0")/.." && pwd)
cases=$(mktemp -d) || exit 1
trap 'rm -rf "$cases"' EXIT
number=0
for script in "$top"/examples/*.script; do
  name=$(basename "$script" .script)
  cp "$script" "$cases/$name" && cp "$top/examples/$name.want" "$cases/$name.stdout" || exit 1
  number=$((number + 1))
done
cd "$top/crates/buckd" || exit 1
report=$(rt try --cases "$cases" -- replay 1 2>&1)
status=$?
echo "$report"
passed=$(grep -c '^case=.* output=expected' <<<"$report")
echo "examples: $passed passed, $((number - passed)) failed"
[ "$passed" -eq "$number" ] || [ "$status" -ne 0 ] || status=1
exit "$status"
