#!/bin/sh
# Bytes of stack that a call of samburext_locate takes, on x86-64: bench/stack.c, linked with the archive that tools/archive writes. All functions are bound
# before it runs, so that no loader uses the stack in a call.
set -eu
unset CDPATH
cd "$(dirname "$0")/.."
archive=target/staticlib/libsamburext.a
[ -f "$archive" ] || { echo "bench/stack.sh: run tools/archive first" >&2; exit 1; }
mkdir -p target/bench
cc -O2 -Wall -Wextra -Iinclude bench/stack.c "$archive" -Wl,-z,now -o target/bench/stack
target/bench/stack
