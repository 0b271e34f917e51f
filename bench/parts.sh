#!/usr/bin/env bash
# How the time of a script grows with its rows: so many files are written, ensured and drained, so that each is made once in a part of the
# disk that is cut out and hung in again. Rows, tickets and files of the program grow with the script too.
# Each time is the wall time of the whole process, the best of some runs; where `perf` is there, it says which share the disk's calls have.
# The peer in the same run is `cat` of the same bytes to a file.
# usage: bench/parts.sh [RUNS [ROWS..]]
set -eu
top=$(cd "$(dirname "$0")/.." && pwd)
runs=${1:-3}
[ "$#" -gt 0 ] && shift
[ "$#" -gt 0 ] || set -- 2000 4000 8000
export LC_ALL=C
folder=$(mktemp -d)
trap 'rm -rf "$folder"' EXIT
"$top/buckd" replay 1 <"$top/examples/one-file.script" >/dev/null
program=$top/crates/buckd/out/buckd

make_script() {
  awk -v rows="$1" 'BEGIN {
    print "enter 1 7"
    for (i = 0; i < rows; i++) printf "write 1 out/d%d/f%d %08x\n", i % 50, i, i
    for (i = 0; i < rows; i++) printf "ensure 1 out/d%d/f%d\n", i % 50, i
    print "drain"
    print "end"
  }' >"$folder/script"
}

replay() { "$program" replay 1 <"$folder/script" >"$folder/replies"; }
copy() { cat <"$folder/script" >"$folder/copy"; }

# The least time of some runs of a command, in seconds.
best() {
  local run from to
  for ((run = 0; run < runs; run++)); do
    from=$(date +%s.%N)
    "$@"
    to=$(date +%s.%N)
    awk -v a="$from" -v b="$to" 'BEGIN { printf "%.3f\n", b - a }'
  done | sort -n | head -n 1
}

# The share of the time in functions of the disk, in percent.
share() {
  perf record -q -o "$folder/perf" "$program" replay 1 <"$folder/script" >/dev/null 2>&1 || return 0
  perf report -i "$folder/perf" --stdio --percent-limit 0 2>/dev/null |
    awk '/region_port|path_trie/ { sub("%", "", $1); sum += $1 } END { printf ", %.1f percent in the disk", sum }'
}

for rows; do
  make_script "$rows"
  printf '%s rows: %s s' "$rows" "$(best replay)"
  if command -v perf >/dev/null; then share; fi
  printf ', cat %s s\n' "$(best copy)"
done
