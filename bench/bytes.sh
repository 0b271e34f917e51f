#!/bin/sh
# How fast bytes pass through the program: files whose lines are about as long as the program reads (1,048,576 bytes, two hexadecimal
# digits for each byte of a file) are put by eight `blob` lines and one `write` line, declared, asked for and made by a drain.
# The peer in the same run is `sha256sum` over as many bytes as the program hashes in all: it hashes a blob when it is put and again
# when it is fetched for the make, a written file once, and each file once more when it is shown. So the peer gets the name of each
# file as often as the program hashes it. (The message of the one directory, some 600 bytes, is left out.) The program also reads
# hexadecimal text, and keeps the bytes in a store and on a disk in memory.
# Each time is the wall time of the whole process, the best of some runs.
# usage: bench/bytes.sh [RUNS]
set -eu
top=$(cd "$(dirname "$0")/.." && pwd)
runs=${1:-5}
export LC_ALL=C
folder=$(mktemp -d)
trap 'rm -rf "$folder"' EXIT
trap 'exit 1' HUP INT TERM

# `blob ` and 1,048,570 digits are 1,048,575 bytes; `write 1 out/w ` and 1,048,562 digits are 1,048,576.
blob=524285
written=524281
mkdir "$folder/files"
make_file() {
  awk -v seed="$1" -v bytes="$2" 'BEGIN {
    x = seed
    for (n = 0; n < bytes; n += 10) {
      x = (x * 16807) % 2147483647
      printf "%s", substr(sprintf("%010d", x), 1, bytes - n)
    }
  }' >"$folder/files/$3"
}
for k in 1 2 3 4 5 6 7 8; do make_file "$k" "$blob" "b$k"; done
make_file 9 "$written" w
hex() { od -An -v -tx1 "$folder/files/$1" | tr -d ' \n'; }
digest() { sed -n "s/^\([0-9a-f]*\)  $1\$/\1/p" "$folder/sums" | tr -d '\n'; echo ":$2"; }
(cd "$folder/files" && sha256sum b1 b2 b3 b4 b5 b6 b7 b8 w) >"$folder/sums"

# The nodes of the tree that is declared, one a line, and of all that is shown.
{
  echo "d ."
  for k in 1 2 3 4 5 6 7 8; do echo "f $(digest "b$k" "$blob") b$k"; done
} >"$folder/nodes"
{
  sed 's,^d \.$,d t,; s, b\([1-8]\)$, t/b\1,' "$folder/nodes"
  echo "f $(digest w "$written") w"
} >"$folder/all"
{
  echo "enter 1 1"
  for k in 1 2 3 4 5 6 7 8; do
    printf 'blob '
    hex "b$k"
    echo
  done
  awk 'BEGIN { printf "declare 1 out/t" } { printf " %s", $0 } END { print "" }' "$folder/nodes"
  printf 'write 1 out/w '
  hex w
  printf '\nensure 1 out/t\nensure 1 out/w\ndrain\n'
} >"$folder/front"
{ cat "$folder/front"; echo end; } >"$folder/script"
{ cat "$folder/front"; printf 'show out\nend\n'; } >"$folder/shown"

wrong() {
  echo "$0: $1" >&2
  exit 1
}

# The first start may build the program.
"$top/buckd" replay 1 <"$top/examples/one-file.script" >/dev/null || wrong "the program isn't built, or fails on an example"
program=$top/crates/buckd/out/buckd
made() { "$program" replay 1 <"$folder/script" >"$folder/replies"; }
shown() { "$program" replay 1 <"$folder/shown" >"$folder/replies"; }
blobs='b1 b2 b3 b4 b5 b6 b7 b8'
# shellcheck disable=SC2086 # the names are words
made_peer() { (cd "$folder/files" && exec sha256sum $blobs $blobs w) >"$folder/peer"; }
# shellcheck disable=SC2086
shown_peer() { (cd "$folder/files" && exec sha256sum $blobs $blobs w $blobs w) >"$folder/peer"; }

# The least time of some runs of a command, in seconds.
best() {
  run=0
  while [ "$run" -lt "$runs" ]; do
    from=$(date +%s.%N)
    "$1"
    to=$(date +%s.%N)
    echo "$from $to"
    run=$((run + 1))
  done | awk -v runs="$runs" 'NR == 1 || $2 - $1 < least { least = $2 - $1 } END { if (NR != runs) exit 1; printf "%.4f", least }'
}

# Whether the replies have the digests that sha256sum gives: of each blob that is stored, and of the written file.
is_right() {
  sed -n 's/^stored //p' "$folder/replies" >"$folder/stored"
  awk '$1 == "f" { print $2 }' "$folder/nodes" | cmp -s - "$folder/stored" || wrong "the digests of the blobs are others"
  grep -q '^answer [0-9]* ready [0-9]* d ' "$folder/replies" || wrong "the tree isn't answered as ready"
  grep -q "^answer [0-9]* ready [0-9]* f $(digest w "$written")\$" "$folder/replies" || wrong "the written file isn't answered as ready"
}

made_time=$(best made)
is_right
shown_time=$(best shown)
is_right
sed '1,/^show /d' "$folder/replies" | cmp -s - "$folder/all" || wrong "the nodes on the disk aren't those that were declared"
made_peer_time=$(best made_peer)
shown_peer_time=$(best shown_peer)

echo "files: 8 by blob lines of $blob bytes each, 1 by a write line of $written bytes"
awk 'length($0) > longest { longest = length($0) } { all += length + 1 }
  END { printf "bytes of the script: %d, of its longest line: %d\n", all, longest }' "$folder/script"
echo "right: the digests of sha256sum are those of the stored blobs, of the written file and of all that is shown"
echo "best of $runs runs:"
awk -v blob="$blob" -v written="$written" -v made="$made_time" -v shown="$shown_time" \
  -v made_peer="$made_peer_time" -v shown_peer="$shown_peer_time" '
  function tell(what, bytes, program, peer) {
    printf "%s: the program hashes %d bytes in all\n", what, bytes
    printf "  buckd replay 1: %.3f s\n  sha256sum of %d bytes: %.3f s\n", program, bytes, peer
    if (peer > 0) printf "  buckd replay 1 / sha256sum: %.1f\n", program / peer
  }
  BEGIN {
    tell("put, fetched and made (blobs twice, the write once)", 16 * blob + written, made, made_peer)
    tell("and shown (each file once more)", 24 * blob + 2 * written, shown, shown_peer)
    printf "what the show adds: %d bytes hashed\n", 8 * blob + written
    printf "  buckd replay 1: %.3f s\n  sha256sum: %.3f s\n", shown - made, shown_peer - made_peer
    if (shown_peer > made_peer) printf "  buckd replay 1 / sha256sum: %.1f\n", (shown - made) / (shown_peer - made_peer)
  }'
