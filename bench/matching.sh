#!/usr/bin/env bash
# Rules on sums, Orderless calls and long runs at three sizes each; the power that is looked for is the one that the search is made for
# (growth.sh says what a row is).
set -u
source "$(dirname "$0")/growth.sh"

sum() { printf 'Apply[Plus, Table[t[i], {i, %d}]]' "$1"; }
derivative() { printf 'd[u_ + v_, x_] := d[u, x] + d[v, x]\n\nd[%s, x];\n' "$(sum "$1")"; }
pairs() { printf 'SetAttributes[o, Orderless];\nMatchQ[Apply[o, Range[%d]], o[x_, x_, ___]]\n' "$1"; }
literal() { printf 'SetAttributes[o, Orderless];\nMatchQ[Apply[o, Append[Range[%d], a]], o[a, ___]]\n' "$1"; }
run() { printf 'g[y__] := 1\n\nApply[g, Range[%d]]\n' "$1"; }
longer() { printf 'g[%d, y___] := 1\n\ng[n_, y___] := g[n + 1, y, x]\n\ng[1]\n' "$1"; }
linear() { printf 'MatchQ[%s, a_ x + b_]\n' "$(sum "$1")"; }

row 'the derivative of a sum, term by term' derivative 2 50 100 200
row 'o[x_, x_, ___], o Orderless, no pair' pairs 2 50 100 200
row 'o[a, ___], o Orderless, a last' literal 1 500 1000 2000
row 'g[y__], on so many elements' run 1 10000 20000 40000
row 'g[n_, y___] := g[n + 1, y, x], to n' longer 2 500 1000 2000
row 'a_ x + b_, on a sum without x' linear 2 50 100 200
