#!/bin/sh
# Turns a second of the desk with 1, 2, 4 and 16 passes, and of std's mutex with as many threads doing the same.
set -e
cd "$(dirname "$0")/../crates/desk_bench"
exec rt run -- bench
