#!/usr/bin/env bash
# Times the proved elimination from outside, on each size and on as many rows again.
# `rt run` in crates/nichols_bench makes the program that is timed.
set -eu
program="$(dirname "$0")/../crates/nichols_bench/out/nichols_bench"
if [ ! -x "$program" ]; then
    echo "first: (cd crates/nichols_bench && rt run -- 60 4 40 101)" >&2
    exit 1
fi
TIMEFORMAT='%U s'
for size in '1000 8 1000 101' '2000 8 1000 101' '20000 4 1000000 65521' '40000 4 1000000 65521'; do
    echo "rows, cells a row, columns, modulus: $size"
    # shellcheck disable=SC2086
    time "$program" $size
done
