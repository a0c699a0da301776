#!/bin/sh
# scripts/jobs.sh [MEMINFO]: prints how many crates `make` proves at a time: one for each processor and each 6 GB of
# memory, and at least one. MEMINFO is a file like /proc/meminfo.
most=$(nproc)
kilobytes=$(sed -n 's/^MemTotal: *\([0-9]*\) kB$/\1/p' "${1:-/proc/meminfo}" 2> /dev/null)
jobs=$((${kilobytes:-6000000} / 6000000))
[ "$jobs" -le "$most" ] || jobs=$most
[ "$jobs" -ge 1 ] || jobs=1
echo "$jobs"
