#!/bin/sh
# A large showing and the judge after it, by one command: 300 trains, 12 paths and 2,000 pairs, with a tenth of ROUNDS and with ROUNDS, 80,000 if none are given.
# It prints the machine's line and a table of seconds and peak memory. 80,000 rounds need 2.4 GB of disk below target/large while they run. GNU time must be there, as /usr/bin/time.
#
#     bench/showing.sh [ROUNDS [FOLDER]]
#
# FOLDER has the programs; without it they are those of target/bin, proved and built where they aren't there.
set -eu
rounds=${1:-80000} programs=
if [ $# -gt 1 ]; then programs=$(cd "$2" && pwd); fi
cd "$(dirname "$0")/.."
if [ -z "$programs" ]; then
    programs=target/bin
    for program in planner asker judge; do
        if [ ! -x "$programs/$program" ]; then .ci/programs "$programs" >&2; fi
    done
fi
bench/large.py target/large
model=$(sed -n 's/^model name[[:space:]]*: //p' /proc/cpuinfo | head -n 1)
echo "$model, $(nproc) processors; $(uname -sr)"
exec bench/showing.py "$programs" target/large $((rounds / 10)) "$rounds"
