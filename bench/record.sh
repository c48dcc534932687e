#!/bin/sh
# Peak memory of 100,000 typed letters, which are one step, and of as many spaces, which are a step each. Called by
# `bench/run record` with the built program. Needs GNU time as /usr/bin/time (Debian's package `time`).
set -eu
program=$1
measure() {
    /usr/bin/time -f '%M' "$program" "$1" 2>&1 >/dev/null | tail -n 1
}
echo "peak of memory: $(measure nothing) KB before, $(measure letters) KB with 100,000 letters, $(measure spaces) KB with 100,000 spaces"
