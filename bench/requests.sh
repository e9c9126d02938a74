#!/usr/bin/env bash
# Measures `cyctl replay` on one connection with many pipelined requests: 100 heads come in one piece, and each is
# served, answered without content and taken by the socket. For 100, 1,000 and 10,000 requests it prints the seconds
# (the middle one of five runs), the requests a second, the greatest time that is wanted, and the memory beside the
# sizes of script and report.
# It measures the program that is built, and is no part of the gate. Status 1: a figure, or an answer, isn't the wanted one.
set -eu
export LC_ALL=C

root=$(cd "$(dirname "${BASH_SOURCE[0]}")/.." && pwd)
program=$root/crates/cyctl/out/cyctl
if [ ! -x "$program" ]; then
    echo "bench: cyctl isn't built: './run cyctl' builds it" >&2
    exit 125
fi
room=$(mktemp -d)
trap 'rm -rf "$room"' EXIT
missed=0
# shellcheck source=measure.sh
. "$root/bench/measure.sh"

# A script of so many requests.
script() {
    awk -v requests="$1" 'BEGIN {
        print "coyote-script 1\nset maxKeepAliveRequests -1\nrule / 0 async\nadmit 1"
        for (begun = 0; begun < requests; begun += 100) {
            heads = ""
            for (i = 0; i < 100; i++) heads = heads "GET / HTTP/1.1\\r\\nHost: a\\r\\n\\r\\n"
            print "in 1 \"" heads "\""
            for (i = 0; i < 100; i++) print "run 1\nreturn 1\nout 1 65536"
        }
    }'
}

# How many requests, and the bound of the milliseconds (0: none).
measure_requests() {
    local requests=$1 most_ms=$2 status micros kib greatest_kib=0 times=() verdict="" ended
    script "$requests" >"$room/input"
    for _ in 1 2 3 4 5; do
        read -r status micros kib < <(measure)
        times+=("$micros")
        [ "$kib" -le "$greatest_kib" ] || greatest_kib=$kib
        [ "$status" = 0 ] || verdict="  WRONG: status $status"
    done
    ended=$(grep -c '^chart 1 [0-9]* Run Return$' "$room/written" || true)
    [ "$ended" = "$requests" ] || verdict="$verdict  WRONG: $ended requests were answered"
    micros=$(printf '%s\n' "${times[@]}" | sort -n | sed -n 3p)
    [ "$most_ms" = 0 ] || [ "$micros" -lt $((most_ms * 1000)) ] || verdict="$verdict  MISSED"
    [ -z "$verdict" ] || missed=1
    awk -v requests="$requests" -v micros="$micros" -v most="$most_ms" -v kib="$greatest_kib" -v verdict="$verdict" \
        -v script="$(wc -c <"$room/input")" -v report="$(wc -c <"$room/written")" 'BEGIN {
            printf "%10d %10.4f %14.0f %10s %8.1f %10.1f %10.1f%s\n", requests, micros / 1000000,
                requests * 1000000 / micros, (most > 0) ? sprintf("%.2f", most / 1000) : "-", kib / 1024,
                script / 1048576, report / 1048576, verdict
        }'
}

printf '%10s %10s %14s %10s %8s %10s %10s\n' requests seconds 'requests/s' wanted MiB 'script MiB' 'report MiB'
measure_requests 100 0
measure_requests 1000 0
measure_requests 10000 1000

exit "$missed"
