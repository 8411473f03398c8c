#!/usr/bin/env bash
# Measures how fast a stream is split into frames, beside the same by hand in C (deframer.c): bench/run frames
#
# Both run in turn, seven times. The medians are printed, in microseconds and GB a second.
source "$(dirname "$0")/../common.sh"
build deframing pglsn pgtuple pgwire
gcc -O2 -o "$work/deframer" "$here/deframer.c"
for _ in 1 2 3 4 5 6 7; do
    "$program" >> "$work/here"
    "$work/deframer" >> "$work/c"
done
cut -d' ' -f1-6 "$work/c" | sort -u | while read -r line; do
    for side in here c; do
        micros="$(grep "^$line " "$work/$side" | awk '{print $8}' | median)"
        echo "$line $side: $micros us, $(awk -v n="${line##* }" -v t="$micros" 'BEGIN { printf "%.2f GB/s", n / t / 1000 }')"
    done
done
