#!/bin/sh
# Entries per second of processor time, and peak memory, of loading, searching and saving a history of 100,000 entries, 20 times.
# Called by `bench/run history` with the built program. Needs GNU time as /usr/bin/time (Debian's package `time`).
set -eu
program=$1
measure() {
    /usr/bin/time -f '%U %S %M' "$program" "$1" 2>&1 >/dev/null | tail -n 1 | awk '{ print $1 + $2, $3 }'
}
base=$(measure nothing)
loaded=$(measure load)
report() {
    set -- "$1" $2 $3
    awk -v name="$1" -v t="$2" -v m="$3" -v t0="$4" -v m0="$5" 'BEGIN {
        s = t - t0; if (s < 0.001) s = 0.001
        printf "%-7s %10.0f entries a second, %d KB at the peak (%d KB before)\n", name, 20 * 100000 / s, m, m0 }'
}
report load "$loaded" "$base"
report search "$(measure search)" "$loaded"
report save "$(measure save)" "$loaded"
