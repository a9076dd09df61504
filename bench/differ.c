// Compares the proved functions with OpenSSL on random messages: the digest in one call, the stream in three
// random parts, eight random texts at once, and the boxes of up to forty trains. Arguments: how many messages, and
// the seed.
#include "proved.h"
#include <openssl/sha.h>
#include <stdio.h>
#include <stdlib.h>
#include <string.h>

enum { LONGEST = 6000, TEXT = 39, TRAINS = 40 };

static uint64_t state;

static uint64_t draw(void) {
    state += 0x9e3779b97f4a7c15;
    uint64_t z = state;
    z = (z ^ z >> 30) * 0xbf58476d1ce4e5b9;
    z = (z ^ z >> 27) * 0x94d049bb133111eb;
    return z ^ z >> 31;
}

static void fill(uint8_t *p, size_t n) {
    for (size_t i = 0; i < n; i++) p[i] = (uint8_t)draw();
}

// Mostly short, so that each length up to a few blocks comes often.
static size_t length(void) { return draw() % 8 ? draw() % 300 : draw() % LONGEST; }

static void compare(const char *what, const uint8_t *got, const uint8_t *m, size_t n) {
    uint8_t want[32];
    SHA256(m, n, want);
    if (memcmp(got, want, 32)) {
        printf("%s differs at a message of %zu bytes\n", what, n);
        exit(1);
    }
}

static void eight(void) {
    struct texts t;
    struct digests d;
    fill((uint8_t *)&t, sizeof t);
    bench_digests(&t, &d);
    for (int j = 0; j < 8; j++) compare("eight at once", d.digests[j], t.texts[j], TEXT);
    if (!__builtin_cpu_supports("avx2")) return;
    memset(&d, 0, sizeof d);
    v3_digests(&t, &d);
    for (int j = 0; j < 8; j++) compare("eight at once, x86-64-v3", d.digests[j], t.texts[j], TEXT);
}

// The bytes after the boxes, and all bytes where the chances are too many, must stay as they are.
static void boxes(void) {
    uint8_t numbers[TRAINS], chances[32 * TRAINS + 1], out[32 * TRAINS + 1], was[sizeof out];
    size_t trains = draw() % (TRAINS + 1);
    uint32_t round = (uint32_t)draw();
    fill(numbers, sizeof numbers);
    fill(chances, sizeof chances);
    fill(was, sizeof was);
    memcpy(out, was, sizeof out);
    if (bench_boxes(round, numbers, trains, chances, 32 * trains + 1, out, sizeof out) || memcmp(out, was, sizeof out)
        || !bench_boxes(round, numbers, trains, chances, 32 * trains, out, sizeof out)
        || memcmp(out + 32 * trains, was + 32 * trains, sizeof out - 32 * trains)) {
        printf("the boxes of %zu trains differ\n", trains);
        exit(1);
    }
    for (size_t t = 0; t < trains; t++) {
        uint8_t text[TEXT] = {round >> 24, round >> 16, round >> 8, round, t >> 8, t, numbers[t]};
        memcpy(text + 7, chances + 32 * t, 32);
        compare("a box", out + 32 * t, text, TEXT);
    }
}

int main(int argc, char **argv) {
    long count = argc > 1 ? atol(argv[1]) : 200000;
    state = argc > 2 ? strtoull(argv[2], 0, 0) : 1;
    uint8_t m[LONGEST];
    struct digest d;
    for (long i = 0; i < count; i++) {
        size_t n = length();
        fill(m, n);
        bench_digest(m, n, &d);
        compare("the digest", d.bytes, m, n);
        bench_in_parts(m, n, draw() % (n + 1), draw() % (n + 1), &d);
        compare("the stream", d.bytes, m, n);
        eight();
        boxes();
    }
    printf("%ld random messages, each whole and in parts, %ld random texts at once, and the boxes of %ld rounds: the same as OpenSSL\n",
        count, 8 * count, count);
    return 0;
}
