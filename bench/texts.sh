#!/usr/bin/env bash
# Measures `cyctl check` on texts of settings. For each it prints the seconds (the middle one of five runs) and the greatest
# memory, beside the figures that are wanted. It measures the program that is built, and is no part of the gate.
# Status 1: a figure, or an answer, isn't the wanted one.
set -eu
export LC_ALL=C

root=$(cd "$(dirname "${BASH_SOURCE[0]}")/.." && pwd)
program=$root/crates/cyctl/out/cyctl
if [ ! -x "$program" ]; then
    echo "bench: cyctl isn't built: './run cyctl' builds it" >&2
    exit 125
fi
room=$(mktemp -d)
trap 'rm -rf "$room"' EXIT
runs=5
greatest=67108864
missed=0
middle=0

# shellcheck source=measure.sh
. "$root/bench/measure.sh"

# NAME, the wanted status, the wanted first line, the bound of the milliseconds, and that of the memory in KiB (0: none).
row() {
    local name=$1 wanted=$2 line=$3 most_ms=$4 most_kib=$5
    local status micros kib greatest_kib=0 times=() verdict=""
    for _ in $(seq "$runs"); do
        read -r status micros kib < <(measure check)
        times+=("$micros")
        [ "$kib" -le "$greatest_kib" ] || greatest_kib=$kib
        [ "$status" = "$wanted" ] || verdict="  WRONG: status $status, and not $wanted"
        [ "$(head -n 1 "$room/written")" = "$line" ] || verdict="  WRONG: it doesn't begin with '$line'"
    done
    micros=$(printf '%s\n' "${times[@]}" | sort -n | sed -n "$(((runs + 1) / 2))p")
    middle=$micros
    [ "$micros" -lt $((most_ms * 1000)) ] || verdict="$verdict  MISSED: time"
    [ "$most_kib" = 0 ] || [ "$greatest_kib" -lt "$most_kib" ] || verdict="$verdict  MISSED: memory"
    [ -z "$verdict" ] || missed=1
    awk -v name="$name" -v status="$status" -v seconds="$micros" -v most="$most_ms" -v kib="$greatest_kib" \
        -v bound="$most_kib" -v verdict="$verdict" 'BEGIN {
            memory = bound > 0 ? sprintf("under %.0f MiB", bound / 1024) : "-"
            printf "%-34s %6s %9.4f %-12s %8.1f %-14s%s\n", name, status, seconds / 1000000,
                sprintf("under %.2f", most / 1000), kib / 1024, memory, verdict
        }'
}

# So many rules, each with a pattern of its own.
rules() {
    awk -v count="$1" 'BEGIN { for (i = 0; i < count; i++) printf "[[rule]]\npattern = \"/p%04d\"\npart = %d\n", i, i % 256 }'
}

# A front of what is written, of so many bytes.
front() {
    head -c "$1" 2>/dev/null || true
}

printf '%-34s %6s %9s %-12s %8s %-14s\n' input status seconds wanted MiB wanted

twenty_times=$((20 * greatest / 1024))

rules 256 >"$room/input"
row "256 rules" 0 "maxConnections 256" 100 0
quarter=$middle
rules 1024 >"$room/input"
row "1024 rules" 0 "maxConnections 256" 100 0
awk -v quarter="$quarter" -v whole="$middle" 'BEGIN { printf "1024 rules take %.2f times as long as 256\n", whole / quarter }'

{
    rules 1024
    printf '[[rule]]\npattern = "/p0000"\npart = 0\n'
} >"$room/input"
row "1025 rules" 3 "refused: bad setting rule list" 100 0

{
    rules 1023
    printf '[[rule]]\npattern = "/p0000"\npart = 0\n'
} >"$room/input"
row "1024 rules, the last one repeated" 3 "refused: bad setting rule.1023.pattern twice" 100 0

head -c "$greatest" /dev/zero | tr '\0' '#' >"$room/input"
row "64 MiB, one comment" 0 "maxConnections 256" 5000 "$twenty_times"

# A key of ten bytes and its value on each line of 16 bytes.
{
    printf '[connector]\n####\n'
    awk -v count=$((greatest / 16 - 1)) 'BEGIN { for (i = 0; i < count; i++) printf "k%09d = 10\n", i }'
} | front "$greatest" >"$room/input"
row "64 MiB, one table of unknown keys" 3 "refused: unknown key connector.k000000000" 5000 "$twenty_times"

head -c $((greatest + 1)) /dev/zero | tr '\0' '#' >"$room/input"
row "a byte more than 64 MiB" 7 "too large" 2000 "$twenty_times"

exit "$missed"
