#!/usr/bin/env bash
# How long a script of many lines takes: writes on different paths, then ensures of them, with a few drains between.
# The peer in the same run is `cat` of the same bytes to a file, the least that reading and writing them can cost.
# usage: bench/lines.sh [LINES]
set -eu
top=$(cd "$(dirname "$0")/.." && pwd)
lines=${1:-100000}
folder=$(mktemp -d)
trap 'rm -rf "$folder"' EXIT
awk -v lines="$lines" 'BEGIN {
  print "enter 1 7"
  for (i = 0; i < 1000; i++) printf "write 1 out/f%d %08x\n", i, i
  rest = lines - 1006
  for (i = 0; i < rest; i++) {
    printf "ensure 1 out/f%d\n", i % 1000
    if (i % int(rest / 4 + 1) == int(rest / 8)) print "drain"
  }
  print "drain"
  print "end"
}' >"$folder/script"
wc -l <"$folder/script" | sed 's/^/lines of the script: /'
"$top/buckd" replay 1 <"$top/examples/one-file.script" >/dev/null
measure() { local name=$1; shift; local from to; from=$(date +%s.%N); "$@"; to=$(date +%s.%N); awk -v n="$name" -v a="$from" -v b="$to" 'BEGIN { printf "%s: %.2f s\n", n, b - a }'; }
run() { "$top/crates/buckd/out/buckd" replay 1 <"$folder/script" >"$folder/replies"; }
peer() { cat <"$folder/script" >"$folder/copy"; }
measure "buckd replay 1" run
measure "cat" peer
wc -c <"$folder/replies" | sed 's/^/bytes of the replies: /'
