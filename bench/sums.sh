#!/usr/bin/env bash
# Sums and products of many terms, and loops that add a term in each turn (growth.sh says what a row is).
set -u
source "$(dirname "$0")/growth.sh"

# A head applied to so many terms, each of the form given
terms() { printf 'Apply[%s, Table[%s, {i, %d}]];\n' "$1" "$2" "$3"; }
sum() { terms Plus 't[i]' "$1"; }
product() { terms Times 't[i]' "$1"; }
scaled() { terms Plus '(i + 1) t[i]' "$1"; }
few_rests() { terms Plus 't[Mod[i, 100]]' "$1"; }
loop() { printf 'r = 0\n\nDo[r = r + %s, {i, %d}]\n' "$1" "$2"; }
behind() { loop 't[i]' "$1"; }
before() { loop 't[-i]' "$1"; }
factors() { printf 'r = 1\n\nDo[r = r t[i], {i, %d}]\n' "$1"; }

row 'a sum of distinct terms' sum 1.1 4000 8000 16000
row 'a product of distinct factors' product 1.1 4000 8000 16000
row 'a sum of terms with coefficients' scaled 1.1 4000 8000 16000
row 'a sum of a hundred terms, in turns' few_rests 1.1 4000 8000 16000
row 'r = r + t[i], to n' behind 2.1 400 800 1600
row 'r = r + t[-i], to n' before 2.1 400 800 1600
row 'r = r t[i], to n' factors 2.1 400 800 1600
