#!/bin/sh
# The differential test, by one command: the proved functions against OpenSSL on random messages.
#
#     bench/differ.sh [COUNT [SEED]]
set -eu
cd "$(dirname "$0")/.."
bench/build.sh
target/bench/differ "$@"
