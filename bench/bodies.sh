#!/usr/bin/env bash
# Measures `cyctl replay` on one request with a large body, which comes in pieces and is read as it comes: each piece is
# followed by a read of as many bytes. Bodies of 1, 8 and 32 MB come in pieces of 8,000 bytes, by their length and in
# chunks, and smaller ones byte by byte. For each it prints the seconds (the middle one of five runs), how long a byte
# takes, the greatest time that is wanted, and the memory beside the sizes of script and report.
# It measures the program that is built, and is no part of the gate. Status 1: a figure, or an answer, isn't the wanted one.
set -eu
export LC_ALL=C

root=$(cd "$(dirname "${BASH_SOURCE[0]}")/.." && pwd)
program=$root/crates/cyctl/out/cyctl
if [ ! -x "$program" ]; then
    echo "bench: cyctl isn't built: './run cyctl' builds it" >&2
    exit 125
fi
room=$(mktemp -d)
trap 'rm -rf "$room"' EXIT
missed=0
first_micros=0
first_bytes=0
# shellcheck source=measure.sh
. "$root/bench/measure.sh"

# A script of a request with a body of so many bytes, framed so, that comes in pieces of so many.
script() {
    awk -v framing="$1" -v bytes="$2" -v piece="$3" 'BEGIN {
        for (i = 0; i < piece; i++) content = content "a"
        field = "Content-Length: " bytes
        last = ""
        if (framing == "chunked") {
            content = sprintf("%x\\r\\n%s\\r\\n", piece, content)
            field = "Transfer-Encoding: chunked"
            last = "in 1 \"0\\r\\n\\r\\n\"\n"
        }
        print "coyote-script 1\nrule / 0 async\nadmit 1"
        print "in 1 \"POST / HTTP/1.1\\r\\nHost: a\\r\\n" field "\\r\\n\\r\\n\"\nrun 1"
        for (i = 0; i < bytes; i += piece) print "in 1 \"" content "\"\nact 1 read " piece
        print last "act 1 read 1\nreturn 1\nout 1 65536"
    }'
}

# Whether the report hands over so many bytes in pieces of so many, each whole, then tells the end, and keeps the
# connection open.
is_answered() {
    awk -v bytes="$1" -v piece="$2" '
        $2 == "Got" { got++; if (length($3) != piece + 2) wrong++ }
        $2 == "GotEnd" { ends++ }
        $0 ~ /^conn 1 open / { open++ }
        END { exit !(got == bytes / piece && ends == 1 && open == 1 && wrong == 0) }' "$room/written"
}

# FRAMING, how many bytes, in pieces of how many, the bound of the milliseconds (0: none), and whether it is the first of
# rows that take as long a byte: those behind it take at most half as long again.
measure_body() {
    local framing=$1 bytes=$2 piece=$3 most_ms=$4 place=$5
    local status micros kib greatest_kib=0 times=() verdict="" sizes steps
    script "$framing" "$bytes" "$piece" >"$room/input"
    for _ in 1 2 3 4 5; do
        read -r status micros kib < <(measure)
        times+=("$micros")
        [ "$kib" -le "$greatest_kib" ] || greatest_kib=$kib
        [ "$status" = 0 ] || verdict="  WRONG: status $status"
    done
    is_answered "$bytes" "$piece" || verdict="$verdict  WRONG: not all content was handed over"
    micros=$(printf '%s\n' "${times[@]}" | sort -n | sed -n 3p)
    [ "$most_ms" = 0 ] || [ "$micros" -lt $((most_ms * 1000)) ] || verdict="$verdict  MISSED: time"
    if [ "$place" = first ]; then
        first_micros=$micros
        first_bytes=$bytes
    elif [ $((2 * micros * first_bytes)) -gt $((3 * first_micros * bytes)) ]; then
        verdict="$verdict  MISSED: longer a byte than the first"
    fi
    # what is held beside script and report, and the steps and replies that stand in them, doesn't grow with the body
    sizes=$(($(wc -c <"$room/input") + $(wc -c <"$room/written")))
    steps=$(wc -l <"$room/input")
    [ "$greatest_kib" -lt $((beside_kib + (2 * sizes + step_bytes * steps) / 1024)) ] || verdict="$verdict  MISSED: memory"
    [ -z "$verdict" ] || missed=1
    awk -v framing="$framing" -v bytes="$bytes" -v piece="$piece" -v micros="$micros" -v most="$most_ms" \
        -v kib="$greatest_kib" -v verdict="$verdict" -v script="$(wc -c <"$room/input")" \
        -v report="$(wc -c <"$room/written")" 'BEGIN {
            printf "%-8s %9d %6d %9.4f %9.2f %7s %8.1f %10.1f %10.1f%s\n", framing, bytes, piece, micros / 1000000,
                micros * 1000 / bytes, (most > 0) ? sprintf("%.2f", most / 1000) : "-", kib / 1024,
                script / 1048576, report / 1048576, verdict
        }'
}

# As much memory as the program may take beside twice its script and its report, which grow by doubling, and that much for
# each step and its reply as values.
beside_kib=16384
step_bytes=40

printf '%-8s %9s %6s %9s %9s %7s %8s %10s %10s\n' framing bytes piece seconds 'ns a byte' wanted MiB 'script MiB' 'report MiB'
for framing in length chunked; do
    measure_body "$framing" 1000000 8000 0 first
    measure_body "$framing" 8000000 8000 0 later
    measure_body "$framing" 32000000 8000 2000 later
done
for framing in length chunked; do
    measure_body "$framing" 20000 1 0 first
    measure_body "$framing" 200000 1 0 later
    measure_body "$framing" 1000000 1 0 later
done

exit "$missed"
