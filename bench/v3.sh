#!/bin/sh
# Builds crates for a processor of the level x86-64-v3, which has AVX2, into target/v3/: a program NAME as
# target/v3/NAME, a static library as target/v3/libNAME.a. Each is proved as by rt, then compiled for that processor.
#
#     bench/v3.sh NAME..
#
# Such a program runs only on such a processor, and a program is run once as it is built: on another it ends with status 127.
set -eu
cd "$(dirname "$0")/.."
mkdir -p target/v3
log=$PWD/target/v3/log

for name in "$@"; do
    if [ -f "crates/$name/src/main.rt" ]; then
        (cd "crates/$name" && rt run --cpu x86-64-v3 -- --help) >"$log" 2>&1 || { cat "$log"; exit 1; }
        cp "crates/$name/out/$name" "target/v3/$name"
        # the next build is for every processor again
        rm "crates/$name/out/$name"
    else
        (cd "crates/$name" && rt lib --cpu x86-64-v3) >"$log" 2>&1 || { cat "$log"; exit 1; }
        cp "crates/$name/out/lib$name.a" target/v3/
    fi
    grep '^logic=' "$log"
done
