#!/usr/bin/env bash
# Measures parts of a connector by the built `parts_bench`: each part runs so often that it takes a second or so. For
# each it prints how often it ran in a second (the middle one of three runs), in millions, the bytes that it read or
# wrote in a second, and the figure that is wanted, in millions a second. It is no part of the gate.
# Status 1: a figure isn't the wanted one, or a checksum changed from run to run.
set -eu
export LC_ALL=C

root=$(cd "$(dirname "${BASH_SOURCE[0]}")/.." && pwd)
program=$root/crates/parts_bench/out/parts_bench
if [ ! -x "$program" ]; then
    echo "bench: parts_bench isn't built: './run parts_bench' builds it" >&2
    exit 125
fi
missed=0

# A row: the part, how often it runs, how many bytes it reads or writes each time, and the wanted figure (0: none).
row() {
    local part=$1 times=$2 bytes=$3 wanted=$4 begin end answer first="" micros taken=() verdict=""
    for _ in 1 2 3; do
        begin=${EPOCHREALTIME/./}
        answer=$("$program" <<<"$part $times")
        end=${EPOCHREALTIME/./}
        taken+=($((end - begin)))
        [ "${first:=$answer}" = "$answer" ] || verdict="  WRONG: another checksum"
    done
    micros=$(printf '%s\n' "${taken[@]}" | sort -n | sed -n 2p)
    awk -v part="$part" -v times="$times" -v bytes="$bytes" -v micros="$micros" -v wanted="$wanted" -v verdict="$verdict" 'BEGIN {
        figure = times / micros
        if (wanted > 0 && figure < wanted) verdict = verdict "  MISSED"
        rate = (bytes > 0) ? sprintf("%.1f", times * bytes / micros) : "-"
        printf "%-26s %12.3f %12s %10s%s\n", part, figure, rate, (wanted > 0) ? wanted : "-", verdict
        exit verdict != ""
    }' || missed=1
}

printf '%-26s %12s %12s %10s\n' part million/s MB/s wanted
row heads_of_100 2000000 100 1.5
row heads_of_1000 500000 1000 0
row heads_of_8000 100000 8000 0.125
row plain_targets 2000000 39 0
row spelled_targets 2000000 75 0
row framings 2000000 0 0
row map_of_1 1000000 100 0
row map_of_1024 1000000 100 0
row machine_calls 300000000 0 100
row enter_and_leave_of_1 100000000 0 0
row enter_and_leave_of_8192 100000000 0 0
row timers_set 300000 0 0
row timers_set_later 300000 0 0
row timers_due 3000000 0 0
row pieces_of_8192 500000 8192 0.183
row answers_of_100 3000000 100 2
row bodies_of_8192 3000000 8192 0.244
row chunks_of_1000 1000000 8061 0.124
row chunks_of_1 20000 6005 0.0166
row scans_of_1000 80000 1000 0
row scans_of_15999 5000 15999 0

exit "$missed"
