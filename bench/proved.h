// The proved functions, as crates/bench_c exports them. A slice is a pointer and a length.
#ifndef PROVED_H
#define PROVED_H
#include <stdbool.h>
#include <stddef.h>
#include <stdint.h>

struct digest { uint8_t bytes[32]; };
struct texts { uint8_t texts[8][39]; };
struct digests { uint8_t digests[8][32]; };

void bench_digest(const uint8_t *message, size_t length, struct digest *out);
void bench_in_parts(const uint8_t *message, size_t length, size_t first, size_t second, struct digest *out);
void bench_digests(const struct texts *texts, struct digests *out);
bool bench_boxes(uint32_t round, const uint8_t *numbers, size_t trains, const uint8_t *chances, size_t chances_length, uint8_t *out,
    size_t out_length);

// The same, built for x86-64-v3.
void v3_digest(const uint8_t *message, size_t length, struct digest *out);
void v3_digests(const struct texts *texts, struct digests *out);
bool v3_boxes(uint32_t round, const uint8_t *numbers, size_t trains, const uint8_t *chances, size_t chances_length, uint8_t *out,
    size_t out_length);
#endif
