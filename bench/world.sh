#!/usr/bin/env bash
# Measures a connector by the built `world_bench`, which makes the steps itself. With 1, 64 and 8,192 connections open, and
# the same beside 20,000 that are gone, it prints how many steps are taken in a second, from 1,000 to 1,000,000 steps, and
# how the slowest of these rates stands to the fastest; then how long a whole short GET takes, a connection from its
# admission until it is gone, and one that is refused; how long it takes to make a connector; and the memory of a place, of
# an open, an idle and a gone connection. Beside each figure stands the one that is wanted. Times are the middle ones of
# five runs, memory the middle one of three. It is no part of the gate.
# Status 1: a figure isn't the wanted one, or an answer isn't the number that was asked for.
set -eu
export LC_ALL=C

root=$(cd "$(dirname "${BASH_SOURCE[0]}")/.." && pwd)
program=$root/crates/world_bench/out/world_bench
if [ ! -x "$program" ]; then
    echo "bench: world_bench isn't built: './run world_bench' builds it" >&2
    exit 125
fi
room=$(mktemp -d)
trap 'rm -rf "$room"' EXIT
missed=0

# Runs a part so often, five times over, and puts the nanoseconds of one time into `nanos`.
measure_part() {
    local part=$1 times=$2
    yes "$part $times" | head -n 5 >"$room/input"
    if ! "$program" <"$room/input" >"$room/written" 2>"$room/told" || ! cmp -s "$room/input" "$room/written"; then
        echo "bench: $part $times was answered: $(tail -n 1 "$room/written" "$room/told")" >&2
        missed=1
    fi
    nanos=$(sort -n -k 3 "$room/told" | awk -v times="$times" 'NR == 3 { print $3 / times }')
}

# Whether the figure is the wanted one: at least that, or at most; prints what stands behind it in its row.
judge() {
    awk -v figure="$1" -v relation="$2" -v wanted="$3" 'BEGIN {
        is_met = (relation == "least") ? figure >= wanted : figure <= wanted
        printf "%s %s%s\n", (relation == "least") ? "at least" : "at most", wanted, is_met ? "" : "  MISSED"
        exit !is_met
    }'
}

# A row: what is measured, the figure with its unit, and the wanted figure (0: none).
row() {
    local name=$1 figure=$2 unit=$3 relation=$4 wanted=$5 verdict=-
    if [ "$wanted" != 0 ]; then
        verdict=$(judge "$figure" "$relation" "$wanted") || missed=1
    fi
    printf '%-58s %10.3f %-12s %s\n' "$name" "$figure" "$unit" "$verdict"
}

# The rates of a part from 1,000 to 1,000,000 steps, and how the slowest stands to the fastest.
rates() {
    local part=$1 name=$2 times rate rates=()
    for times in 1000 10000 100000 1000000; do
        measure_part "$part" "$times"
        rate=$(awk -v nanos="$nanos" 'BEGIN { print 1000 / nanos }')
        rates+=("$rate")
        row "$name, $times steps" "$rate" million/s least 2
    done
    rate=$(printf '%s\n' "${rates[@]}" | sort -n | awk 'NR == 1 { slowest = $1 } END { print slowest / $1 }')
    row "$name: the slowest rate by the fastest" "$rate" "" least 0
}

# How long a part takes once, in a unit of so many nanoseconds.
time_of() {
    local name=$1 part=$2 times=$3 unit=$4 size=$5 wanted=$6
    measure_part "$part" "$times"
    row "$name" "$(awk -v nanos="$nanos" -v size="$size" 'BEGIN { print nanos / size }')" "$unit" most "$wanted"
}

# The greatest memory of a run of a part, in kB: what was taken from the system, and how much of it was ever used.
peaks_of() {
    local answer pid wrong=0 all=()
    mkfifo "$room/asked" "$room/answered"
    for _ in 1 2 3; do
        "$program" <"$room/asked" >"$room/answered" 2>"$room/told" &
        pid=$!
        exec 3>"$room/asked" 4<"$room/answered"
        echo "$1 $2" >&3
        read -r answer <&4 || answer="nothing: $(tail -n 1 "$room/told")"
        if [ "$answer" != "$1 $2" ]; then
            echo "bench: $1 $2 was answered $answer" >&2
            wrong=1
        fi
        all+=("$(awk '/^VmPeak/ { taken = $2 } /^VmHWM/ { used = $2 } END { print taken, used }' "/proc/$pid/status")")
        exec 3>&- 4<&-
        wait "$pid" || wrong=1
    done
    rm "$room/asked" "$room/answered"
    printf '%s\n' "${all[@]}" | sort -n | sed -n 2p
    return "$wrong"
}

# Two rows: what is measured, the part and how often it runs; the part and how often it runs that is taken off; among how
# many; the wanted figure for the memory that is taken.
memory() {
    local name=$1 count=$6 wanted=$7 more less
    more=$(peaks_of "$2" "$3") || missed=1
    less=$(peaks_of "$4" "$5") || missed=1
    row "$name, taken" "$(share_of "${more% *}" "${less% *}" "$count")" kB most "$wanted"
    row "$name, used" "$(share_of "${more#* }" "${less#* }" "$count")" kB most "$wanted"
}

share_of() {
    awk -v more="$1" -v less="$2" -v count="$3" 'BEGIN { print (more - less) / count }'
}

echo "cores: $(nproc)   load: $(cut -d' ' -f1-3 /proc/loadavg)"
printf '%-58s %10s %-12s %s\n' measured figure '' wanted
for open in 1 64 8192; do
    rates "open_$open" "$open open, none gone"
    rates "beside_$open" "$open open, 20000 gone"
done
for open in 1 64 8192; do
    time_of "a whole GET, $open open" "get_$open" 100000 ns 1 1200
done
time_of "a connection with one GET until it is gone" pass_1 20000 ns 1 0
time_of "a connection that is refused" full_1 100000 ns 1 0
time_of "a connector of 1 place is made" make_1 100 ms 1000000 0
time_of "a connector of 256 places is made" make_256 10 ms 1000000 20
time_of "a connector of 8192 places is made" make_8192 1 ms 1000000 1000
memory "a place" make_8192 1 make_1 1 8191 130
memory "an idle connection, beside its place" admit_8192 8192 make_8192 1 8192 0
memory "an idle connection with two GETs behind it" get_8192 8192 make_8192 1 8192 0
memory "an open connection, beside its place" sit_8192 8192 make_8192 1 8192 0
memory "a gone connection" pass_1 20000 pass_1 0 20000 0

exit "$missed"
