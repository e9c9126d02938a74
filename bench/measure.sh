# How a run of a program is measured; to be sourced, with `program` and the folder `room` set.

# GNU time tells the memory of a program; without it a few lines of Python do.
timer=/usr/bin/time
"$timer" -q -f %M true 2>/dev/null >/dev/null || timer=

# Runs the program on the input, with the word that is given or else `replay`. Writes what it wrote to `written`, and prints
# its status, its microseconds and its greatest memory in KiB.
measure() {
    local word=${1:-replay} status=0 begin end
    if [ -n "$timer" ]; then
        begin=${EPOCHREALTIME/./}
        "$timer" -q -f %M -o "$room/memory" "$program" "$word" <"$room/input" >"$room/written" || status=$?
        end=${EPOCHREALTIME/./}
        echo "$status $((end - begin)) $(tail -n 1 "$room/memory")"
    else
        python3 - "$program" "$room/input" "$room/written" "$word" <<'PYTHON'
import resource
import subprocess
import sys
import time

program, given, written, word = sys.argv[1:]
with open(given, "rb") as source, open(written, "wb") as sink:
    begin = time.monotonic()
    status = subprocess.call([program, word], stdin=source, stdout=sink)
    end = time.monotonic()
memory = resource.getrusage(resource.RUSAGE_CHILDREN).ru_maxrss
print(status, int((end - begin) * 1000000), memory)
PYTHON
    fi
}
