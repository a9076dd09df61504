// The digest of n bytes at m, by the plain C implementation as gcc compiles it, and as clang does.
#ifndef PLAIN_H
#define PLAIN_H
#include <stddef.h>
#include <stdint.h>
void plain_digest(const uint8_t *m, size_t n, uint8_t out[32]);
void clang_digest(const uint8_t *m, size_t n, uint8_t out[32]);
#endif
