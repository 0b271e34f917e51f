#!/bin/sh
# How long one tree of many small files takes: their bytes are put into the program's store by `blob` lines, then the whole tree
# is declared by one line, asked for, and made by a drain. The program's disk is in memory. The peer in the same run is `cp -r` of the
# same files from one folder in memory to another (/dev/shm; without one, below the temporary folder).
# The program also reads the bytes as hexadecimal text, and takes the SHA-256 of each file when it is put and when it is fetched;
# `cp` does neither, but asks the kernel for each file. The same script without its drain is measured too: the rest is the make.
# Each time is the wall time of the whole process, the best of some runs.
# usage: bench/trees.sh [FILES [RUNS]]
set -eu
top=$(cd "$(dirname "$0")/.." && pwd)
files=${1:-5000}
runs=${2:-5}
export LC_ALL=C
folder=$(mktemp -d)
ram=$folder
trap 'rm -rf "$folder" "$ram"' EXIT
trap 'exit 1' HUP INT TERM
if [ -d /dev/shm ] && [ -w /dev/shm ]; then ram=$(mktemp -d /dev/shm/trees.XXXXXX); fi

# The files: 32 digits each, all distinct, in 50 directories.
mkdir "$ram/from"
awk 'BEGIN { for (d = 0; d < 50; d++) printf "d%02d\n", d }' | (cd "$ram/from" && xargs mkdir)
awk -v files="$files" -v from="$ram/from" 'BEGIN {
  for (i = 0; i < files; i++) {
    name = sprintf("%s/d%02d/f%04d", from, i % 50, i)
    printf "%032d", i > name
    close(name)
  }
}'

# The words of the tree in order of path, one node a line, and from them the script.
(cd "$ram/from" && find . ! -name . | sed 's,^\./,,' | sort) >"$folder/names"
(cd "$ram/from" && grep / "$folder/names" | xargs sha256sum) >"$folder/sums"
awk 'BEGIN { print "d ." }
  NR == FNR { hash[$2] = $1; next }
  $1 in hash { print "f " hash[$1] ":32 " $1; next }
  { print "d " $1 }' "$folder/sums" "$folder/names" >"$folder/nodes"
nodes=$(($(wc -l <"$folder/nodes")))
{
  echo "enter 1 1"
  awk '$1 == "f" { sub(/.*\/f/, "", $3); hex = sprintf("%032d", $3); gsub(/./, "3&", hex); print "blob " hex }' "$folder/nodes"
  awk 'BEGIN { printf "declare 1 out" } { printf " %s", $0 } END { print "" }' "$folder/nodes"
  echo "ensure 1 out"
} >"$folder/front"
longest=$(awk 'length($0) > longest { longest = length($0) } END { print longest }' "$folder/front")
# The longest line that the program reads.
if [ "$longest" -gt 1048576 ]; then
  echo "$0: the tree's line would have $longest bytes, and 1048576 is the most" >&2
  exit 1
fi
{ cat "$folder/front"; echo end; } >"$folder/undrained"
{ cat "$folder/front"; echo drain; echo end; } >"$folder/script"
{ cat "$folder/front"; echo drain; echo "show out"; echo end; } >"$folder/shown"

wrong() {
  echo "$0: $1" >&2
  exit 1
}

# The first start may build the program.
"$top/buckd" replay 1 <"$top/examples/one-file.script" >/dev/null || wrong "the program isn't built, or fails on an example"
program=$top/crates/buckd/out/buckd
undrained() { "$program" replay 1 <"$folder/undrained" >"$folder/replies"; }
drained() { "$program" replay 1 <"$folder/script" >"$folder/replies"; }
peer() { cp -r "$ram/from" "$ram/to"; }

# The least time of some runs of a command, in seconds; the copy that the peer made is taken away before each.
best() {
  run=0
  while [ "$run" -lt "$runs" ]; do
    rm -rf "$ram/to"
    from=$(date +%s.%N)
    "$1"
    to=$(date +%s.%N)
    echo "$from $to"
    run=$((run + 1))
  done | awk -v runs="$runs" 'NR == 1 || $2 - $1 < least { least = $2 - $1 } END { if (NR != runs) exit 1; printf "%.4f", least }'
}

# What is measured is right: the answer is ready, and the disk then has exactly the nodes that were declared.
"$program" replay 1 <"$folder/shown" >"$folder/replies" || wrong "the program ended with another status than 0"
grep -q '^answer [0-9]* ready [0-9]* d ' "$folder/replies" || wrong "the tree isn't answered as ready"
grep -q "^show $nodes\$" "$folder/replies" || wrong "the disk doesn't show $nodes nodes"
sed "1,/^show /d" "$folder/replies" | cmp -s - "$folder/nodes" || wrong "the nodes on the disk aren't those that were declared"
ready=$(grep '^answer ' "$folder/replies")

undrained_time=$(best undrained)
drained_time=$(best drained)
[ "$(grep '^answer ' "$folder/replies")" = "$ready" ] || wrong "the measured run has another answer"
peer_time=$(best peer)
diff -r "$ram/from" "$ram/to" >/dev/null || wrong "the copy isn't like the files"

echo "files: $files, nodes with the directories: $nodes, the tree's line: $longest bytes"
echo "right: $(echo "$ready" | sed 's/^answer [0-9]* //'), and show has the $nodes nodes that were declared"
echo "best of $runs runs, from $(dirname "$ram"):"
awk -v whole="$drained_time" -v front="$undrained_time" -v peer="$peer_time" 'BEGIN {
  printf "buckd replay 1, the whole script: %.3f s\n", whole
  printf "buckd replay 1, without the drain: %.3f s (so the make: %.3f s)\n", front, whole - front
  printf "cp -r: %.3f s\n", peer
  if (peer > 0) printf "the whole script / cp -r: %.1f, the make / cp -r: %.1f\n", whole / peer, (whole - front) / peer
}'
