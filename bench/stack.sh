#!/usr/bin/env bash
# The least stack, in KiB, on which the built program runs scripts that nest evaluations up to the greatest depth, each by another form.
# A script counts as run where it prints what it prints on the stack that the system gives.
set -u
top=$(cd "$(dirname "$0")/.." && pwd)
program=${WOLFPAR:-$top/crates/wolfpar/out/wolfpar}
work=$(mktemp -d) || exit 1
trap 'rm -rf "$work"' EXIT
precision=16

# so many times a text
times() { local i; for ((i = 0; i < $1; i++)); do printf '%s' "$2"; done; }

# a call that is as deep as this
nested() { times "$1" "$2"; printf '%s' "$3"; times "$1" "$4"; }

printed() { "$program" --kernels 0 --steps 100000000 <"$work/script" 2>/dev/null; }

runs_on() { (ulimit -c 0; ulimit -s "$1"; [ "$(printed)" = "$wanted" ]) 2>/dev/null; }

# Prints the least stack for a script, with its name and the last line that it prints
least() {
  local low=0 high=$((1 << 20)) middle
  printf '%s\n' "$2" >"$work/script"
  wanted=$(printed) || { printf '%-44s%s\n' "$1" 'does not run'; return; }
  while ((high - low > precision)); do
    middle=$(((low + high) / 2))
    if runs_on "$middle"; then high=$middle; else low=$middle; fi
  done
  printf '%-44s%8d   %s\n' "$1" "$high" "$(tail -n 1 <<<"$wanted" | cut -c 1-30)"
}

blank=$'\n\n'
deep=$(nested 505 '{' 1 '}')

[ -n "${WOLFPAR:-}" ] || "$top/prove" || exit 1
least 'nothing' '1'
least 'calls of a name without rules' "$(nested 255 'f[' x ']')"
least 'a sum in a sum' "$(nested 254 '1 + f[' x ']')"
least 'parentheses, which only the reader nests' "$(nested 1000 '(' 1 ')')"
least 'a List of depth 505, printed' "Hold[$deep]"
least 'a rule in an element' "r[x_] := 1 + r[x]${blank}r[0]"
least 'a guard of a rule' "g[x_] := 1 /; g[x + 1]${blank}g[0]"
least 'a test of a pattern' "g[x_?g] := 1${blank}g[0]"
least 'an up rule' "g[u[x_]] ^:= 1 + g[u[x]]${blank}g[u[0]]"
least 'a value of Module' "m[x_] := Module[{y = m[x]}, y]${blank}m[0]"
least 'Block' "b[x_] := Block[{y = x}, b[y]]${blank}b[0]"
least 'a value of With' "w[x_] := With[{y = w[x]}, y]${blank}w[0]"
least 'Table' "t[x_] := Table[t[i], {i, 1}]${blank}t[0]"
least 'Do' "t[x_] := Do[t[i], {i, 1}]${blank}t[0]"
least 'Sum with a List' "t[x_] := Sum[t[i], {i, {1}}]${blank}t[0]"
least 'a bound of an iterator' "t[x_] := Table[1, {t[x]}]${blank}t[0]"
least 'the test of If' "i[x_] := If[i[x], 1, 2]${blank}i[0]"
least 'CompoundExpression' "c[x_] := (c[x]; 1)${blank}c[0]"
least 'Which' "c[x_] := Which[c[x], 1]${blank}c[0]"
least 'And' "c[x_] := And[c[x], 1]${blank}c[0]"
least 'the test of While' "c[x_] := While[c[x], 1]${blank}c[0]"
least 'a Function in a Function' "h = Function[x, h[x] + 1]${blank}h[0]"
least 'Map' "h = Map[h, {#}] &${blank}h[0]"
least 'Nest' "n[x_] := Nest[n, x, 1]${blank}n[0]"
least 'Fold' "n[x_, y_] := Fold[n, x, {y}]${blank}n[0, 0]"
least 'FixedPoint' "n[x_] := FixedPoint[n, x]${blank}n[0]"
least 'Select' "n[x_] := Select[{x}, n]${blank}n[0]"
least 'a guard of MatchQ' "q[x_] := MatchQ[x, y_ /; q[y]]${blank}q[0]"
least 'a guard of Count' "q[x_] := Count[{x}, _?q]${blank}q[0]"
least 'a guard of FreeQ' "q[x_] := FreeQ[x, y_ /; q[y]]${blank}q[0]"
least 'a guard of ReplaceAll' "q[x_] := x /. y_ /; q[y] -> 1${blank}q[0]"
least 'a guard of ReplaceRepeated' "q[x_] := x //. y_ /; q[y] -> 1${blank}q[0]"
least 'a guard of Cases' "q[x_] := Cases[{x}, y_ /; q[y]]${blank}q[0]"
least 'the left side of Set' "s[x_] := (a[s[x]] = 1)${blank}s[0]"
least 'the left side of Unset' "s[x_] := (a[s[x]] =.)${blank}s[0]"
least 'the right side of TagSet' "s[x_] := (t /: t[1] = s[x])${blank}s[0]"
least 'AppendTo' "l = {};${blank}s[x_] := AppendTo[l, s[x]]${blank}s[0]"
least 'AddTo' "s[x_] := (k = 1; k += s[x])${blank}s[0]"
for form in 'FreeQ[deep, q]' 'deep === other' 'Sort[{deep, other}]' 'deep /. q -> 1' 'MatchQ[deep, other]' "With[{q = 1}, Hold[$deep]]"; do
  script="deep = Hold[$deep];${blank}other = Hold[$deep];${blank}v[0] := ($form; True); v[n_] := True /; v[n - 1]${blank}v[250]"
  least "${form:0:20} under 250 guards" "$script"
done
