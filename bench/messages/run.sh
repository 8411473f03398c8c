#!/usr/bin/env bash
# Measures how fast messages are read, beside the same by hand in C (decoder.c): bench/run messages [RAW]
#
# RAW has the plain bytes of a session; without it one is made (200,000 Inserts of four text cells of 10 bytes). Each way runs in turn, 21
# times. The medians are printed, with the bytes of frames a second and the ratio to the same way in C; visiting each cell is compared
# with C's pointers to all of them.
source "$(dirname "$0")/../common.sh"
raw="${1:-$work/made.raw}"
[ $# -gt 0 ] || python3 "$top/bench/subscriber/generate.py" inserts "$raw" --changes 200000
build messages pglsn pgtuple pgwire pglogical
gcc -O2 -o "$work/decoder" "$here/decoder.c"
size="$(stat -c %s "$raw")"
chunks="4096 65536 1000000"
for _ in $(seq 21); do
    for chunk in $chunks; do
        for way in borrowed owned; do
            "$work/decoder" "$raw" "$way" "$chunk" 1 >> "$work/c-$way.$chunk"
        done
        for way in borrowed cells owned; do
            "$program" "$raw" "$way" "$chunk" 1 >> "$work/$way.$chunk"
        done
    done
done
middle() {
    awk '{ print $4 }' "$work/$1" | median
}
printf '%-10s %-11s %10s %6s %8s\n' chunks way micros GB/s 'times C'
for chunk in $chunks; do
    for pair in c-borrowed:c-borrowed borrowed:c-borrowed cells:c-borrowed c-owned:c-owned owned:c-owned; do
        way="${pair%:*}"
        awk -v chunk="$chunk" -v way="$way" -v t="$(middle "$way.$chunk")" -v c="$(middle "${pair#*:}.$chunk")" -v size="$size" \
            'BEGIN { printf "%-10s %-11s %10d %6.2f %8.2f\n", chunk, way, t, size / t / 1000, t / c }'
    done
done
