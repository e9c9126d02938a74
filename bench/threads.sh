#!/usr/bin/env bash
# Measures what threads share by the built `threads_bench`: places that go through a queue, numbers of a pool, and wakes
# from one thread to another. Each part runs so often that it takes a second or so. For each it prints how often it ran
# in a second (the middle one of three runs), in millions, the time of one in µs, and the figure that is wanted, in
# millions a second. It is no part of the gate.
# Status 1: a figure isn't the wanted one, or an answer isn't the number that was asked for.
set -eu
export LC_ALL=C

root=$(cd "$(dirname "${BASH_SOURCE[0]}")/.." && pwd)
program=$root/crates/threads_bench/out/threads_bench
if [ ! -x "$program" ]; then
    echo "bench: threads_bench isn't built: './run threads_bench' builds it" >&2
    exit 125
fi
missed=0

# A row: the part, how often it runs, how many such steps one run has, and the wanted figure (0: none).
row() {
    local part=$1 times=$2 steps=$3 wanted=$4 begin end answer micros taken=() verdict=""
    for _ in 1 2 3; do
        begin=${EPOCHREALTIME/./}
        answer=$("$program" <<<"$part $times")
        end=${EPOCHREALTIME/./}
        taken+=($((end - begin)))
        [ "$answer" = "$part $times" ] || verdict="  WRONG: $answer"
    done
    micros=$(printf '%s\n' "${taken[@]}" | sort -n | sed -n 2p)
    awk -v part="$part" -v times="$((times * steps))" -v micros="$micros" -v wanted="$wanted" -v verdict="$verdict" 'BEGIN {
        figure = times / micros
        if (wanted > 0 && figure < wanted) verdict = verdict "  MISSED"
        printf "%-16s %12.3f %12.3f %10s%s\n", part, figure, micros / times, (wanted > 0) ? wanted : "-", verdict
        exit verdict != ""
    }' || missed=1
}

echo "cores: $(nproc)   load: $(cut -d' ' -f1-3 /proc/loadavg)"
printf '%-16s %12s %12s %10s\n' part million/s 'µs each' wanted
row queue_by_1 5000000 1 3
row queue_by_2 4000000 1 0
row queue_by_4 2000000 1 0
row wakes_by_queue 50000 2 0
row pool_by_1 10000000 1 5
row pool_by_2 4000000 1 0
row pool_by_4 4000000 1 0

exit "$missed"
