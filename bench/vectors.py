#!/usr/bin/env python3
"""Prints what the program `vectors` must write, by hashlib: the file crates/vectors/stdout."""
from hashlib import sha256

MESSAGES = [
    "",
    "abc",
    "abcdbcdecdefdefgefghfghighijhijkijkljklmklmnlmnomnopnopq",
    "abcdefghbcdefghicdefghijdefghijkefghijklfghijklmghijklmnhijklmnoijklmnop"
    "jklmnopqklmnopqrlmnopqrsmnopqrstnopqrstu",
]
LENGTHS = [1, 54, 55, 56, 57, 63, 64, 65, 118, 119, 120, 127, 128, 129]

for m in MESSAGES:
    print(f'"{m}"', sha256(m.encode()).hexdigest())
print('a million times "a"', sha256(b"a" * 1_000_000).hexdigest())
for n in LENGTHS:
    d = sha256(bytes(range(n))).hexdigest()
    print(n, "bytes", d)
    print(n, "bytes in parts", d)
for j in range(8):
    print("text", j, sha256(bytes([j]) * 39).hexdigest())
