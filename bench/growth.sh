# Sourced by scripts of this folder: builds the program, and measures scripts at three sizes each. A row is the user seconds of one run
# beyond those of an empty script, how the time grows from the second size to the third, as the power of the size, and the power that is
# looked for; 1.1 stands for n log n, 2.1 for n^2 log n. A run that takes more than 120 seconds of a processor is ended ("-").
top=$(cd "$(dirname "$0")/.." && pwd)
program=$top/crates/wolfpar/out/wolfpar

# User seconds of a script
seconds() {
  local TIMEFORMAT=%U
  { time "$program" --kernels 0 --steps 100000000 <<<"$1" >/dev/null 2>&1; } 2>&1
}

# Prints a row: what it is, a script at three sizes, and the power that is looked for
row() {
  local name=$1 script=$2 wanted=$3 size times=()
  shift 3
  for size; do times+=("$(seconds "$($script "$size")")"); done
  awk -v name="$name" -v wanted="$wanted" -v none="$empty" -v sizes="$*" -v times="${times[*]}" 'BEGIN {
    split(sizes, n, " "); split(times, t, " ")
    for (i = 1; i <= 3; i++) { t[i] -= none; shown = shown sprintf("%12s", n[i] ": " (t[i] > 119 ? "-" : sprintf("%.2f", t[i]))) }
    power = t[2] >= 0.05 && t[3] < 119 ? sprintf("%.1f", log(t[3] / t[2]) / log(n[3] / n[2])) : "-"
    printf "%-44s%s%8s of %s\n", name, shown, power, wanted
  }'
}

"$top/prove" || exit 1
ulimit -t 120
empty=$(seconds '')
