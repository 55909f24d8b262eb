#!/usr/bin/env bash
# The cases of bench/language with the built program, beside yacas and maxima where they are installed, each in its own language: the
# least user time of three runs in seconds, and how many times the program's that is. A run that takes more than 120 seconds of a
# processor is ended ("-"), and one that prints another answer than the program is marked with "?". Last the memory of the last case:
# the greatest resident size, and bytes a node beyond what an empty script takes. Wants GNU time in /usr/bin/time.
set -u
top=$(cd "$(dirname "$0")/.." && pwd)
cases=$top/bench/language
program=$top/crates/wolfpar/out/wolfpar
seen=$(mktemp) || exit 1
trap 'rm -f "$seen"' EXIT

wolfpar() { /usr/bin/time -o "$seen" -f '%U %M' "$program" --kernels 0 --steps 100000000 <"$1" | tail -n 1 | sed 's/^Out\[[0-9]*\]= //'; }
yacas_run() { /usr/bin/time -o "$seen" -f '%U %M' yacas -pc "$1" </dev/null; }
maxima_run() { /usr/bin/time -o "$seen" -f '%U %M' maxima --very-quiet --batch-string="load(\"$1\")\$" </dev/null | tail -n 1; }

# A field of the last run: user seconds, or the greatest resident size in kB
field() { tail -n 1 "$seen" | cut -d ' ' -f "$1"; }

# Sets `answer`, and `least` to the least user time of three runs, or to "-" where no answer came
measure() {
  local run
  least=-
  for run in 1 2 3; do
    answer=$("$@" 2>/dev/null | tr -d ' \n' | tr '{}' '[]')
    [ -n "$answer" ] || { least=-; return; }
    least=$(printf '%s\n%s\n' "$least" "$(field 1)" | grep -v '^-$' | sort -n | head -n 1)
  done
}

# Prints the time of a peer with its ratio
beside() {
  local mark=''
  measure "$@"
  [ "$answer" = "$wanted" ] || mark=' ?'
  awk -v a="$own" -v b="$least" -v m="$mark" 'BEGIN { if (b == "-") printf "%18s", "-"; else if (a + 0 > 0) printf "%18s", sprintf("%.2f (%.1f)%s", b, b / a, m); else printf "%18s", sprintf("%.2f%s", b, m) }'
}

"$top/prove" || exit 1
ulimit -t 120
printf '%-14s%10s%18s%18s\n' case wolfpar yacas maxima
for script in "$cases"/*.wl; do
  name=$(basename "$script" .wl)
  measure wolfpar "$script"
  own=$least wanted=$answer
  printf '%-14s%10s' "${name#*-}" "$own"
  if command -v yacas >/dev/null; then beside yacas_run "$cases/$name.ys"; else printf '%18s' absent; fi
  if command -v maxima >/dev/null; then beside maxima_run "$cases/$name.mac"; else printf '%18s' absent; fi
  printf '\n'
done

nodes=3999999
wolfpar /dev/null >/dev/null
empty=$(field 2)
wolfpar "$cases/7-range.wl" >/dev/null
awk -v a="$empty" -v b="$(field 2)" -v n="$nodes" 'BEGIN { printf "memory: %d kB, %.1f bytes a node\n", b, (b - a) * 1024 / n }'
