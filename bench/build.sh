#!/bin/sh
# Builds the benchmark and the differential test into target/bench/: the proved functions as a static library,
# by default and for x86-64-v3, the plain C at -O3, and OpenSSL's library of this system. Needs gcc, objcopy and
# OpenSSL's headers.
set -eu
cd "$(dirname "$0")/.."
out=target/bench
mkdir -p "$out"
bench/v3.sh bench_c >"$out/log" 2>&1 || { cat "$out/log"; exit 1; }
cp target/v3/libbench_c.a "$out/libv3.a"
(cd crates/bench_c && rt lib) >>"$out/log" 2>&1 || { cat "$out/log"; exit 1; }
cp crates/bench_c/out/libbench_c.a "$out/libbench_c.a"
objcopy --redefine-sym bench_digest=v3_digest --redefine-sym bench_digests=v3_digests \
    --redefine-sym bench_in_parts=v3_in_parts --redefine-sym bench_boxes=v3_boxes "$out/libv3.a"
gcc -O3 -Wall -c -o "$out/plain.o" bench/plain.c
objects=$out/plain.o with=
if command -v clang >/dev/null; then
    clang -O3 -Dplain_digest=clang_digest -c -o "$out/clang.o" bench/plain.c
    objects="$objects $out/clang.o" with=-DWITH_CLANG
fi
proved="$out/libbench_c.a $out/libv3.a"
gcc -O2 -Wall $with -o "$out/bench" bench/bench.c $objects $proved -lcrypto
gcc -O2 -Wall -o "$out/differ" bench/differ.c $proved -lcrypto
