#!/bin/sh
# The benchmark, by one command: builds it, and prints the machine's line and a table of rates, with their ratios
# to the plain C that gcc compiles. One run, one core, nothing of it in parallel.
set -eu
cd "$(dirname "$0")/.."
bench/build.sh
pin= bench=target/bench/bench
if command -v taskset >/dev/null; then pin='taskset -c 0'; fi
model=$(sed -n 's/^model name[[:space:]]*: //p' /proc/cpuinfo | head -n 1)
flags=$(for f in avx2 sha_ni; do if grep -qw "$f" /proc/cpuinfo; then printf ' %s' "$f"; fi; done)
echo "$model, with$flags; $(uname -sr); $(gcc --version | head -n 1); $(openssl version)"
# OpenSSL's other code, without the SHA instructions: the bit is masked before the library looks at it
set --
if [ "$flags" != "${flags#*sha_ni}" ]; then
    OPENSSL_ia32cap=:~0x20000000 $pin $bench only 'OpenSSL, SHA256_' >target/bench/masked
    { read -r name && read -r texts && read -r bytes; } <target/bench/masked
    set -- "the same without SHA instructions" "$texts" "$bytes"
fi
$pin $bench "$@"
