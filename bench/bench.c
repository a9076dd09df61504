// Measures the proved functions beside the plain C ones and OpenSSL's, and prints a table of rates and of
// ratios to the plain C. Each is timed several times, in turn, by the time of the process; the best counts.
#define OPENSSL_SUPPRESS_DEPRECATED
#include "plain.h"
#include "proved.h"
#include <openssl/evp.h>
#include <openssl/sha.h>
#include <stdio.h>
#include <stdlib.h>
#include <string.h>
#include <time.h>

enum { TURNS = 9, TEXTS = 400000, LONG = 1 << 24, TEXT = 39, TRAINS = 300 };

static uint8_t message[LONG];
static uint8_t sink;

static double now(void) {
    struct timespec t;
    clock_gettime(CLOCK_PROCESS_CPUTIME_ID, &t);
    return t.tv_sec + t.tv_nsec * 1e-9;
}

typedef void one_message(const uint8_t *m, size_t n, uint8_t out[32]);

static void scalar(const uint8_t *m, size_t n, uint8_t out[32]) { bench_digest(m, n, (struct digest *)out); }
static void scalar_v3(const uint8_t *m, size_t n, uint8_t out[32]) { v3_digest(m, n, (struct digest *)out); }
static void stream(const uint8_t *m, size_t n, uint8_t out[32]) { bench_in_parts(m, n, n / 3, n / 2, (struct digest *)out); }
static void openssl_call(const uint8_t *m, size_t n, uint8_t out[32]) { SHA256(m, n, out); }
static void openssl_evp(const uint8_t *m, size_t n, uint8_t out[32]) { EVP_Digest(m, n, out, 0, EVP_sha256(), 0); }
static void openssl_parts(const uint8_t *m, size_t n, uint8_t out[32]) {
    SHA256_CTX c;
    SHA256_Init(&c);
    SHA256_Update(&c, m, n);
    SHA256_Final(out, &c);
}

typedef void eight_messages(const struct texts *t, struct digests *out);

typedef bool all_boxes(uint32_t round, const uint8_t *numbers, size_t trains, const uint8_t *chances, size_t chances_length,
    uint8_t *out, size_t out_length);

struct row { const char *name; one_message *one; eight_messages *eight; all_boxes *boxes; int text, whole, v3; double texts, bytes; };

static struct row rows[] = {
    {"plain C, gcc -O3", plain_digest, 0, 0, 1, 1, 0, 0, 0},
#ifdef WITH_CLANG
    {"plain C, clang -O3", clang_digest, 0, 0, 1, 1, 0, 0, 0},
#endif
    {"proved, one message", scalar, 0, 0, 1, 1, 0, 0, 0},
    {"proved, a stream in three parts", stream, 0, 0, 1, 1, 0, 0, 0},
    {"proved, eight texts at once", 0, bench_digests, 0, 1, 0, 0, 0, 0},
    {"proved, boxes closed (300 trains)", 0, 0, bench_boxes, 1, 0, 0, 0, 0},
    {"proved, one message, x86-64-v3", scalar_v3, 0, 0, 1, 1, 1, 0, 0},
    {"proved, eight texts at once, x86-64-v3", 0, v3_digests, 0, 1, 0, 1, 0, 0},
    {"proved, boxes closed, x86-64-v3", 0, 0, v3_boxes, 1, 0, 1, 0, 0},
    {"OpenSSL, SHA256()", openssl_call, 0, 0, 1, 1, 0, 0, 0},
    {"OpenSSL, EVP_Digest()", openssl_evp, 0, 0, 1, 1, 0, 0, 0},
    {"OpenSSL, SHA256_Init, _Update, _Final", openssl_parts, 0, 0, 1, 1, 0, 0, 0},
};
enum { ROWS = sizeof rows / sizeof *rows };

static void number_text(uint8_t t[TEXT], uint32_t i) { memcpy(t, &i, sizeof i); }

static double time_texts(const struct row *r) {
    static struct texts t;
    struct digests d;
    double start = now();
    for (uint32_t i = 0; i < TEXTS; i += 8) {
        for (int j = 0; j < 8; j++) {
            number_text(t.texts[j], i + j);
            if (r->one) r->one(t.texts[j], TEXT, d.digests[j]);
        }
        if (r->eight) r->eight(&t, &d);
        for (int j = 0; j < 8; j++) sink += d.digests[j][0];
    }
    return TEXTS / (now() - start);
}

static double time_boxes(const struct row *r) {
    static uint8_t numbers[TRAINS], chances[32 * TRAINS], out[32 * TRAINS];
    double start = now();
    uint32_t rounds = TEXTS / TRAINS;
    for (uint32_t i = 0; i < rounds; i++) {
        number_text(chances, i);
        if (!r->boxes(i, numbers, TRAINS, chances, sizeof chances, out, sizeof out)) abort();
        for (int t = 0; t < TRAINS; t++) sink += out[32 * t];
    }
    return (double)rounds * TRAINS / (now() - start);
}

static double time_long(const struct row *r) {
    uint8_t d[32];
    double start = now();
    r->one(message, LONG, d);
    sink += d[0];
    return LONG / 1e6 / (now() - start);
}

static int usable(const struct row *r) { return !r->v3 || __builtin_cpu_supports("avx2"); }

static void measure(const char *only) {
    for (int turn = 0; turn < TURNS; turn++)
        for (struct row *r = rows; r < rows + ROWS; r++) {
            if (!usable(r) || (only && strncmp(r->name, only, strlen(only)))) continue;
            double t = r->boxes ? time_boxes(r) : r->text ? time_texts(r) : 0, b = r->whole ? time_long(r) : 0;
            if (t > r->texts) r->texts = t;
            if (b > r->bytes) r->bytes = b;
        }
}

static void print_row(const char *name, double texts, double bytes) {
    printf("| %-40s |", name);
    if (texts > 0) printf(" %9.2f | %5.2f |", texts / 1e6, texts / rows[0].texts);
    else printf(" %9s | %5s |", "", "");
    if (bytes > 0) printf(" %8.0f | %5.2f |\n", bytes, bytes / rows[0].bytes);
    else printf(" %8s | %5s |\n", "", "");
}

// Boxes beside the eight texts at once of the same build.
static void print_boxes(const struct row *r) {
    const struct row *raw = rows;
    while (!raw->eight || raw->v3 != r->v3) raw++;
    printf("%s: %.2f M boxes/s, %.2f of \"%s\"\n", r->name, r->texts / 1e6, r->texts / raw->texts, raw->name);
}

// bench only PREFIX: the rates of the rows so named, for another call of bench to print.
// bench [NAME TEXTS BYTES]...: the whole table, with such rows after its own.
int main(int argc, char **argv) {
    for (size_t i = 0; i < LONG; i++) message[i] = (uint8_t)(i * 31 >> 3);
    const char *only = argc == 3 && !strcmp(argv[1], "only") ? argv[2] : 0;
    measure(only);
    if (only) {
        for (int i = 0; i < ROWS; i++)
            if (rows[i].texts > 0) printf("%s\n%f\n%f\n", rows[i].name, rows[i].texts, rows[i].bytes);
        return sink == 256;
    }
    printf("| %-40s | M texts/s | to C  | MB/s     | to C  |\n", "39-byte texts, and one long message");
    printf("|%.42s|-----------|-------|----------|-------|\n", "------------------------------------------");
    for (int i = 0; i < ROWS; i++)
        if (usable(&rows[i])) print_row(rows[i].name, rows[i].texts, rows[i].bytes);
    for (int i = 1; i + 2 < argc; i += 3) print_row(argv[i], atof(argv[i + 1]), atof(argv[i + 2]));
    for (int i = 1; i < ROWS; i++)
        if (rows[i].boxes && usable(&rows[i])) print_boxes(&rows[i]);
    return sink == 256;
}
