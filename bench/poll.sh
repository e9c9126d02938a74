#!/usr/bin/env bash
# Measures what a poller does by the built `poll_bench`: the table of interests, wakes from one thread to another by the
# poll, and an echo over 64 connections of the loopback in one thread. Each part runs so often that it takes a second or
# so. For each it prints how often it ran in a second (the middle one of three runs), in millions, the time of one in µs,
# and the figure that is wanted, in millions a second. For the echo it prints messages a second of processor time of the
# side that sends back, and, where strace is there, its calls of the system for a message. It is no part of the gate.
# Status 1: a figure isn't the wanted one, or an answer isn't the number that was asked for.
set -eu
export LC_ALL=C

root=$(cd "$(dirname "${BASH_SOURCE[0]}")/.." && pwd)
program=$root/crates/poll_bench/out/poll_bench
if [ ! -x "$program" ]; then
    echo "bench: poll_bench isn't built: './run poll_bench' builds it" >&2
    exit 125
fi
missed=0
work=$(mktemp -d)
trap 'rm -rf "$work"' EXIT

# A row: the part, how often it runs, and the wanted figure (0: none).
row() {
    local part=$1 times=$2 wanted=$3 begin end answer micros taken=() verdict=""
    for _ in 1 2 3; do
        begin=${EPOCHREALTIME/./}
        answer=$("$program" <<<"$part $times")
        end=${EPOCHREALTIME/./}
        taken+=($((end - begin)))
        [ "$answer" = "$part $times" ] || verdict="  WRONG: $answer"
    done
    micros=$(printf '%s\n' "${taken[@]}" | sort -n | sed -n 2p)
    awk -v part="$part" -v times="$times" -v micros="$micros" -v wanted="$wanted" -v verdict="$verdict" 'BEGIN {
        figure = times / micros
        if (wanted > 0 && figure < wanted) verdict = verdict "  MISSED"
        printf "%-16s %12.3f %12.4f %10s%s\n", part, figure, micros / times, (wanted > 0) ? wanted : "-", verdict
        exit verdict != ""
    }' || missed=1
}

# Serves so many messages, under the command that is given before it, and asks for them from another process.
echo_of() {
    local messages=$1 port=""
    shift
    mkfifo "$work/told"
    (
        TIMEFORMAT='%U %S'
        time "$@" "$program" <<<"serve $messages" >"$work/told"
    ) 2>"$work/spent" &
    local server=$!
    exec 3<"$work/told"
    read -r _ port <&3
    "$program" <<<"ask_$port $messages" >/dev/null
    cat <&3 >/dev/null
    exec 3<&-
    wait "$server" || missed=1
    rm "$work/told"
}

echo "cores: $(nproc)   load: $(cut -d' ' -f1-3 /proc/loadavg)"
printf '%-16s %12s %12s %10s\n' part million/s 'µs each' wanted
row want 50000000 33
row want_by_1 20000000 0
row want_by_2 10000000 0
row want_by_4 10000000 0
row sort_given 64000000 10
row sort_kept 64000000 10
row wakes_by_poll 50000 0

messages=640000
echo_of "$messages"
awk -v messages="$messages" '{
    printf "echo: %.0f thousand messages a processor second (%.2f s in the program, %.2f s in the system)\n", messages / ($1 + $2) / 1000, $1, $2
}' "$work/spent"

if command -v strace >/dev/null; then
    messages=64000
    echo_of "$messages" strace -f -c -o "$work/calls"
    awk -v messages="$messages" '$NF ~ /^(recvfrom|recv|read|sendto|send|write|epoll_wait|epoll_ctl|accept4|futex)$/ {
        printf "echo: %-10s %8d calls, %.4f a message\n", $NF, $4, $4 / messages
    }' "$work/calls"
else
    echo "echo: strace isn't there, so no call was counted"
fi

exit "$missed"
