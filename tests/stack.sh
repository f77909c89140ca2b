#!/usr/bin/env bash
# tests/stack.sh FOLDER [MEASURED]: tells how much stack each function of the library in FOLDER takes, and fails if that is more
# than format3.h says (enum format3_stack). It is measured on all fixtures, whole and damaged (stack.c), and worked out from the
# machine code for every path through it, which must touch each page of a large frame (frames.awk).
# With a file MEASURED it measures nothing, and takes these lines for what stack.c has printed.
set -euo pipefail
folder=$(realpath "$1")
given=${2:+$(realpath "$2")}
cd "$(dirname "$0")"
built=$(mktemp -d)
trap 'rm -rf "$built"' EXIT

compile() {
    gcc -std=gnu11 -O3 -Wall -Wextra -Wconversion -Wsign-conversion -Werror -pedantic -I "$folder/include" -I ../examples/c "$@"
}

# The examples call the measured functions. What they call is bound at once, as a dynamic linker would use the stack too.
compile_measured() {
    compile -c -Dformat3_read_slice=measured_read_slice ../examples/c/stream.c -o "$built/stream.o"
    compile -c -Dformat3_reconstruct=measured_reconstruct -Dformat3_read_header=measured_read_header ../examples/c/decoder.c \
        -o "$built/decoder.o"
    compile -Wl,-z,now stack.c "$built"/{stream,decoder}.o ../examples/c/show.c "$folder/lib/libformat3.a" -o "$built/stack"
}

status=0
if [[ -n $given ]]; then
    cp "$given" "$built/measured"
else
    compile_measured
    "$built/stack" fixtures/slices.txt fixtures/panel/*.reel fixtures/streams/*.reel fixtures/streams/*.m1v |
        tee "$built/measured" || status=1
fi

# By the machine code: within the limits; and not less than measured, except for arguments, else frames.awk has missed something.
# Each function that is measured must be worked out too, and the other way round.
objdump -d --no-show-raw-insn "$folder/lib/libformat3.so" | awk -f frames.awk | sort > "$built/frames"
sed -nE 's/.*FORMAT3_STACK_(\w+) = ([0-9]+).*/\1 \2/p' "$folder/include/format3.h" > "$built/limits"
awk '
    FILENAME ~ /limits$/ { limit[$1] = $2; next }
    FILENAME ~ /measured$/ {
        sub(/,/, "", $2)
        bytes = match($0, /[0-9]+ bytes/) ? substr($0, RSTART) + 0 : 0
        if (!($2 in most) || bytes > most[$2]) most[$2] = bytes
        next
    }
    {
        worked_out[$1]
        count++
        key = toupper(substr($1, 9))
        bound = (key in limit ? limit[key] : limit["DEFAULT"]) + 0
        printf "stack: %-46s %6d bytes of %5d on any path%s\n", $1, $2, bound, ($2 > bound ? "  TOO MUCH" : "")
        if ($2 > bound) failed = 1
        if (!($1 in most)) { print "stack: " $1 " is not measured"; failed = 1 }
        else if (most[$1] > $2 + 64) { print "stack: " $1 " takes more than frames.awk has found"; failed = 1 }
    }
    END {
        for (f in most) if (!(f in worked_out)) { print "stack: " f " is not worked out"; failed = 1 }
        exit failed || count == 0
    }' "$built/limits" "$built/measured" "$built/frames" || status=1
exit $status
