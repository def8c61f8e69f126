#!/bin/sh
# Instructions that one call executes, ours and the Rust's, for every case of the benchmark: what 3 calls execute less what 1 call
# executes, halved, so that what the driver does before and after does not count. Counted by qemu's user emulator (Debian's package
# qemu-user), on any machine. `bench/instructions.sh functions NAME` shows one case function by function.
set -eu
unset CDPATH
cd "$(dirname "$0")/.."
program=target/bench/x86_64-unknown-linux-gnu/release/bench
plugin=target/bench/instructions.so
[ -x "$program" ] || { echo "build it first: see docs/PERFORMANCE.md"; exit 1; }
cc -O2 -Wall -Wextra -shared -fPIC bench/instructions.c -o "$plugin"

room=''
trap '[ -z "$room" ] || rm -rf "$room"' EXIT
trap 'exit 129' HUP
trap 'exit 130' INT
trap 'exit 143' TERM
room=$(mktemp -d)

# NAME SIDE: $room/calls gets a line for each function, with what one call of the case executes in it. A run that counts nothing ends this script.
count() {
    : >"$room/runs"
    for calls in 1 3; do
        if ! qemu-x86_64 -d plugin -plugin "$plugin" "$program" run "$1" "$2" "$calls" >"$room/said" 2>&1 || ! grep -q '^executed ' "$room/said"; then
            cat "$room/said" >&2
            echo "bench/instructions.sh: nothing was counted of $1, $2" >&2
            exit 1
        fi
        sed -n "s/^executed /$calls /p" "$room/said" >>"$room/runs"
    done
    awk '{ n = $2; at = $1; $1 = $2 = ""; sum[$0] += at == 3 ? n : -n } END { for (f in sum) if (sum[f] / 2 >= 1) printf "%d%s\n", sum[f] / 2, f }' "$room/runs" |
        sort -nr >"$room/calls"
}

total() { awk '{ n += $1 } END { print n }' "$room/calls"; }

if [ "${1:-}" = functions ]; then
    for side in ours rust; do
        echo "$2, $side:"
        count "$2" "$side"
        c++filt <"$room/calls" | awk '$1 >= 500'
    done
    exit 0
fi
names=$(qemu-x86_64 "$program" list)
echo "| case | ours | Rust | ours / Rust |"
echo "|---|---|---|---|"
for name in $names; do
    count "$name" ours
    ours=$(total)
    count "$name" rust
    rust=$(total)
    echo "$name $ours $rust" | awk '{ printf "| %s | %d | %d | %.2f |\n", $1, $2, $3, $2 / $3 }'
done
