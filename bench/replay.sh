#!/usr/bin/env bash
# Measures `cyctl replay` on inputs of the greatest size and on a script that writes as much as one may. For each it
# prints the seconds (the middle one of five runs) and the greatest memory, beside the figures that are wanted.
# It measures the program that is built, and is no part of the gate. Status 1: a figure, or an answer, isn't the wanted one.
set -eu
export LC_ALL=C

root=$(cd "$(dirname "${BASH_SOURCE[0]}")/.." && pwd)
program=$root/crates/cyctl/out/cyctl
if [ ! -x "$program" ]; then
    echo "bench: cyctl isn't built: './run cyctl' builds it" >&2
    exit 125
fi
room=$(mktemp -d)
trap 'rm -rf "$room"' EXIT
runs=5
greatest=67108864
missed=0

# shellcheck source=measure.sh
. "$root/bench/measure.sh"

# So many letters.
letters() {
    head -c "$1" /dev/zero | tr '\0' a
}

# A script of seven lines whose `in` line and `write` line quote the two files.
script() {
    printf 'coyote-script 1\nrule / 0 async\nadmit 1\nin 1 "'
    cat "$1"
    printf '"\nrun 1\nact 1 write "'
    cat "$2"
    printf '"\nreturn 1\n'
}

# NAME, the wanted status, the wanted first line, the bound of the milliseconds, and that of the memory in KiB (0: none).
row() {
    local name=$1 wanted=$2 line=$3 most_ms=$4 most_kib=$5
    local status micros kib greatest_kib=0 times=() verdict=""
    for _ in $(seq "$runs"); do
        read -r status micros kib < <(measure)
        times+=("$micros")
        [ "$kib" -le "$greatest_kib" ] || greatest_kib=$kib
        [ "$status" = "$wanted" ] || verdict="  WRONG: status $status, and not $wanted"
        [ "$(head -n 1 "$room/written")" = "$line" ] || verdict="  WRONG: it doesn't begin with '$line'"
    done
    micros=$(printf '%s\n' "${times[@]}" | sort -n | sed -n "$(((runs + 1) / 2))p")
    [ "$micros" -lt $((most_ms * 1000)) ] || verdict="$verdict  MISSED: time"
    [ "$most_kib" = 0 ] || [ "$greatest_kib" -lt "$most_kib" ] || verdict="$verdict  MISSED: memory"
    [ -z "$verdict" ] || missed=1
    awk -v name="$name" -v status="$status" -v seconds="$micros" -v most="$most_ms" -v kib="$greatest_kib" \
        -v bound="$most_kib" -v verdict="$verdict" 'BEGIN {
            memory = bound > 0 ? sprintf("under %.0f MiB", bound / 1024) : "-"
            printf "%-34s %6s %9.4f %-12s %8.1f %-14s%s\n", name, status, seconds / 1000000,
                sprintf("under %.2f", most / 1000), kib / 1024, memory, verdict
        }'
}

printf '%-34s %6s %9s %-12s %8s %-14s\n' input status seconds wanted MiB wanted

three_times=$((3 * greatest / 1024))

letters $((greatest + 1)) >"$room/input"
row "a byte more than 64 MiB" 7 "too large" 2000 "$three_times"

letters "$greatest" >"$room/input"
row "64 MiB, refused at its first line" 3 "refused: script" 2000 "$three_times"

# Both quoted texts, less what the script has beside them: it has 64 MiB in all.
: >"$room/empty"
beside=$(script "$room/empty" "$room/empty" | wc -c)
letters $((greatest - beside)) >"$room/came"
script "$room/came" "$room/empty" >"$room/input"
rm "$room/came"
row "64 MiB, of one in line" 0 "1 Entered" 2000 "$three_times"

printf 'GET / HTTP/1.1\\r\\nHost: a\\r\\n\\r\\n' >"$room/came"
letters 8192 >"$room/content"
script "$room/came" "$room/content" >"$room/input"
row "a script that writes 8192 bytes" 0 "1 Entered" 20 0

exit "$missed"
