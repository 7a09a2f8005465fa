#!/bin/sh
# Builds target/fuzz/ohakelm_fuzz, in the repository's root. It needs clang with
# libFuzzer (Debian: clang, libclang-rt-dev), cargo, and the archive of this
# machine's processor: target/aarch64 on 64-bit Arm, else target/staticlib. Both
# are made by link/archives.
# OHAKELM_LIB_DIR names another folder for the archive.
set -eu
cd "$(dirname "$0")/.."
case $(uname -m) in
aarch64) folder=target/aarch64 ;;
*) folder=target/staticlib ;;
esac
library=${OHAKELM_LIB_DIR:-$folder}/libohakelm.a
if [ ! -f "$library" ]; then
    echo "There is no $library yet." >&2
    exit 1
fi
mkdir -p target/fuzz/corpus

# The counters that libFuzzer reads, and the comparisons that it follows.
RUSTFLAGS="-Cpasses=sancov-module \
 -Cllvm-args=-sanitizer-coverage-level=4 \
 -Cllvm-args=-sanitizer-coverage-inline-8bit-counters \
 -Cllvm-args=-sanitizer-coverage-pc-table \
 -Cllvm-args=-sanitizer-coverage-trace-compares \
 -Ccodegen-units=1" \
    cargo build --release --manifest-path fuzz/guide/Cargo.toml --target-dir target/fuzz/guide

clang -g -O1 -std=c11 -Wall -Wextra -fsanitize=fuzzer,address,undefined -Iinclude \
    fuzz/ohakelm_fuzz.c target/fuzz/guide/release/libohakelm_guide.a "$library" \
    -lpthread -ldl -lm -o target/fuzz/ohakelm_fuzz
