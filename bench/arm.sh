#!/bin/sh
# The benchmark on an Arm machine: the archive that the toolchain builds for Arm, timed beside the Rust by the same driver. The toolchain runs on x86-64, so the archive is made there,
# by `tools/archive aarch64-unknown-linux-gnu`, and the folder target/aarch64-unknown-linux-gnu is carried over.
#
# Words after it go to the benchmark, as `bench/arm.sh run hard-12-4 ours 100`. docs/PERFORMANCE.md has what was measured.
set -eu
unset CDPATH
cd "$(dirname "$0")/.."
machine=$(uname -m)
[ "$machine" = aarch64 ] || { echo "bench/arm.sh: this machine is $machine; on x86-64 see docs/PERFORMANCE.md" >&2; exit 1; }
folder=$PWD/target/aarch64-unknown-linux-gnu
[ -f "$folder/libsamburext.a" ] || { echo "bench/arm.sh: no $folder/libsamburext.a; on x86-64 \`tools/archive aarch64-unknown-linux-gnu\` makes it" >&2; exit 1; }
export SAMBUREXT_ARCHIVE="$folder"
cargo build --release --offline --quiet --manifest-path bench/Cargo.toml --target-dir target/bench/arm
exec target/bench/arm/release/bench "$@"
