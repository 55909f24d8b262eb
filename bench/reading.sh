#!/usr/bin/env bash
# Seconds in which lists and sums of so many integers of eight digits are read and printed: user and system time of one run of the
# program each. A list of 100,000 is a cell of 1 MB.
set -eu
top=$(cd "$(dirname "$0")/.." && pwd)
program=$top/crates/wolfpar/out/wolfpar
cell=$(mktemp)
trap 'rm -f "$cell"' EXIT

# so many integers with a separator between
integers() {
  awk -v n="$1" -v sep="$2" 'BEGIN { for (i = 1; i <= n; i++) printf "%s%d", (i > 1 ? sep : ""), 10000000 + (i * 7919) % 90000000 }'
}

"$top/prove" || exit 1
TIMEFORMAT='%U user, %S system'
for n in 25000 50000 100000; do
  { printf 'HoldComplete[{'; integers "$n" ', '; printf '}]\n'; } >"$cell"
  echo "a list of $n integers, $(wc -c <"$cell") bytes:"
  time "$program" --kernels 0 <"$cell" >/dev/null
done
for n in 22500 45000 90000; do
  { integers "$n" ' + '; printf '\n'; } >"$cell"
  echo "a sum of $n integers, $(wc -c <"$cell") bytes:"
  time "$program" --kernels 0 <"$cell" >/dev/null
done
