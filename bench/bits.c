/* The twin in C of the range coder and the parity, and the measure of both: it records a sequence of symbols and their bits,
   lets each side write and read it by turns, and prints the best of each and the median of the ratios. `bench/bits` builds and runs it. */

#define _POSIX_C_SOURCE 199309L

#include <stdbool.h>
#include <stdint.h>
#include <stdio.h>
#include <stdlib.h>
#include <string.h>
#include <time.h>

enum { SETS = 512, STATES = 32 * SETS, ROUNDS = 21 };
enum { BITS = 10000000, PARITY_BYTES = 16 << 20 };

/* A signed value, and the set that its symbol is coded with. */
struct recorded {
    int16_t value;
    uint16_t set;
};

/* The calls of the library in Rattle. A slice is a place and a length. */
uint32_t codec_c_parity(const uint8_t *bytes, size_t count);
uint64_t codec_c_read_bits(const uint8_t *bytes, size_t count, const uint16_t *recorded, size_t bits);
size_t codec_c_write_bits(const uint16_t *recorded, size_t bits, uint8_t *out, size_t room);
uint64_t codec_c_read_symbols(const uint8_t *bytes, size_t count, const struct recorded *recorded, size_t symbols);
size_t codec_c_write_symbols(const struct recorded *recorded, size_t symbols, uint8_t *out, size_t room);

/* ---- states. RFC 9043 sections 3.8.1.3 to 3.8.1.5 */

static const uint8_t one_state[256] = {
    0, 0, 0, 0, 0, 0, 0, 0, 20, 21, 22, 23, 24, 25, 26, 27,
    28, 29, 30, 31, 32, 33, 34, 35, 36, 37, 37, 38, 39, 40, 41, 42,
    43, 44, 45, 46, 47, 48, 49, 50, 51, 52, 53, 54, 55, 56, 56, 57,
    58, 59, 60, 61, 62, 63, 64, 65, 66, 67, 68, 69, 70, 71, 72, 73,
    74, 75, 75, 76, 77, 78, 79, 80, 81, 82, 83, 84, 85, 86, 87, 88,
    89, 90, 91, 92, 93, 94, 94, 95, 96, 97, 98, 99, 100, 101, 102, 103,
    104, 105, 106, 107, 108, 109, 110, 111, 112, 113, 114, 114, 115, 116, 117, 118,
    119, 120, 121, 122, 123, 124, 125, 126, 127, 128, 129, 130, 131, 132, 133, 133,
    134, 135, 136, 137, 138, 139, 140, 141, 142, 143, 144, 145, 146, 147, 148, 149,
    150, 151, 152, 152, 153, 154, 155, 156, 157, 158, 159, 160, 161, 162, 163, 164,
    165, 166, 167, 168, 169, 170, 171, 171, 172, 173, 174, 175, 176, 177, 178, 179,
    180, 181, 182, 183, 184, 185, 186, 187, 188, 189, 190, 190, 191, 192, 194, 194,
    195, 196, 197, 198, 199, 200, 201, 202, 202, 204, 205, 206, 207, 208, 209, 209,
    210, 211, 212, 213, 215, 215, 216, 217, 218, 219, 220, 220, 222, 223, 224, 225,
    226, 227, 227, 229, 229, 230, 231, 232, 234, 234, 235, 236, 237, 238, 239, 240,
    241, 242, 243, 244, 245, 246, 247, 248, 248, 0, 0, 0, 0, 0, 0, 0,
};
static uint8_t zero_state[256];

static void make_zero_states(void)
{
    for (int i = 1; i < 256; i++)
        zero_state[i] = one_state[256 - i] ? 256 - one_state[256 - i] : 0;
}

/* ---- reading. RFC 9043 section 3.8.1.1 */

struct reader {
    const uint8_t *bytes;
    size_t count, taken;
    uint32_t range, low;
};

static struct reader reader_over(const uint8_t *bytes, size_t count)
{
    uint32_t first = 256u * (count > 0 ? bytes[0] : 0) + (count > 1 ? bytes[1] : 0);
    struct reader r = {bytes, count, 2, 0xFF00, first};
    if (first >= 0xFF00) {
        r.low = 0xFF00;
        r.count = 0;
    }
    return r;
}

static inline bool read_bit(struct reader *r, uint8_t *state)
{
    uint32_t one = r->range * *state >> 8;
    uint32_t zero = r->range - one;
    bool bit = r->low >= zero;
    if (bit) {
        r->low -= zero;
        r->range = one;
        *state = one_state[*state];
    } else {
        r->range = zero;
        *state = zero_state[*state];
    }
    if (r->range < 256) {
        r->range <<= 8;
        r->low = r->low << 8 | (r->taken < r->count ? r->bytes[r->taken] : 0);
        r->taken++;
    }
    return bit;
}

/* ---- writing. RFC 9043 section 3.8.1.1: `low` is what follows the bytes that were put, and a carry goes back into these */

struct writer {
    uint8_t *bytes;
    size_t used, room;
    uint32_t range, low;
};

static struct writer writer_of(void)
{
    struct writer w = {NULL, 0, 0, 0xFF00, 0};
    return w;
}

static void make_room(struct writer *w, size_t more)
{
    if (w->room - w->used < more) {
        w->room += w->room / 2 + 65;
        w->bytes = realloc(w->bytes, w->room);
        if (!w->bytes)
            abort();
    }
}

static inline void put_byte(struct writer *w, uint32_t low)
{
    if (low >= 0x10000)
        for (size_t back = w->used; back-- > 0 && ++w->bytes[back] == 0;)
            ;
    w->bytes[w->used] = low >> 8;
}

static inline void write_bit_in_room(struct writer *w, uint8_t *state, bool bit)
{
    uint32_t one = w->range * *state >> 8;
    uint32_t zero = w->range - one;
    if (bit) {
        w->low += zero;
        w->range = one;
        *state = one_state[*state];
    } else {
        w->range = zero;
        *state = zero_state[*state];
    }
    if (w->range < 256) {
        put_byte(w, w->low);
        w->range <<= 8;
        w->low = (w->low & 0xFF) << 8;
        w->used++;
    }
}

static inline void write_bit(struct writer *w, uint8_t *state, bool bit)
{
    make_room(w, 1);
    write_bit_in_room(w, state, bit);
}

/* The bytes, with no closing bit, to the front of `out`. Their number, or 0 where they don't fit. */
static size_t finish(struct writer *w, uint8_t *out, size_t room)
{
    make_room(w, 1);
    put_byte(w, w->low + 255);
    size_t count = w->used + 1;
    if (count > room)
        count = 0;
    memcpy(out, w->bytes, count);
    free(w->bytes);
    return count;
}

/* ---- symbols. RFC 9043 section 3.8.1.2 */

static inline int at_most(int i, int most)
{
    return i < most ? i : most;
}

static inline int64_t read_symbol(struct reader *r, uint8_t *set)
{
    if (read_bit(r, set))
        return 0;
    int exponent = 0;
    while (read_bit(r, set + 1 + at_most(exponent, 9)))
        if (++exponent > 31)
            return INT64_MIN;
    uint32_t magnitude = 1;
    for (int i = exponent - 1; i >= 0; i--)
        magnitude = 2 * magnitude + read_bit(r, set + 22 + at_most(i, 9));
    return read_bit(r, set + 11 + at_most(exponent, 10)) ? -(int64_t)magnitude : (int64_t)magnitude;
}

static inline void write_symbol(struct writer *w, uint8_t *set, int64_t value)
{
    make_room(w, 65);
    uint32_t magnitude = value < 0 ? -value : value;
    write_bit_in_room(w, set, magnitude == 0);
    if (magnitude == 0)
        return;
    int exponent = 31 - __builtin_clz(magnitude);
    for (int i = 0; i < exponent; i++)
        write_bit_in_room(w, set + 1 + at_most(i, 9), true);
    write_bit_in_room(w, set + 1 + at_most(exponent, 9), false);
    for (int i = exponent - 1; i >= 0; i--)
        write_bit_in_room(w, set + 22 + at_most(i, 9), magnitude >> i & 1);
    write_bit_in_room(w, set + 11 + at_most(exponent, 10), value < 0);
}

/* ---- the passes of the twin */

static uint64_t twin_read(const uint8_t *bytes, size_t count, const uint16_t *recorded, size_t bits)
{
    struct reader r = reader_over(bytes, count);
    uint8_t states[STATES];
    uint64_t wrong = 0;
    memset(states, 128, sizeof states);
    for (size_t i = 0; i < bits; i++)
        wrong += read_bit(&r, &states[recorded[i] / 2 % STATES]) != recorded[i] % 2;
    return wrong;
}

static size_t twin_write(const uint16_t *recorded, size_t bits, uint8_t *out, size_t room)
{
    struct writer w = writer_of();
    uint8_t states[STATES];
    memset(states, 128, sizeof states);
    for (size_t i = 0; i < bits; i++)
        write_bit(&w, &states[recorded[i] / 2 % STATES], recorded[i] % 2);
    return finish(&w, out, room);
}

static uint64_t twin_read_symbols(const uint8_t *bytes, size_t count, const struct recorded *recorded, size_t symbols)
{
    struct reader r = reader_over(bytes, count);
    uint8_t states[STATES];
    uint64_t wrong = 0;
    memset(states, 128, sizeof states);
    for (size_t i = 0; i < symbols; i++)
        wrong += read_symbol(&r, &states[32 * (recorded[i].set % SETS)]) != recorded[i].value;
    return wrong;
}

static size_t twin_write_symbols(const struct recorded *recorded, size_t symbols, uint8_t *out, size_t room)
{
    struct writer w = writer_of();
    uint8_t states[STATES];
    memset(states, 128, sizeof states);
    for (size_t i = 0; i < symbols; i++)
        write_symbol(&w, &states[32 * (recorded[i].set % SETS)], recorded[i].value);
    return finish(&w, out, room);
}

/* ---- the parity, four bytes at a time. RFC 9043 section 4.9.3 */

static uint32_t tables[4][256];

static void make_tables(void)
{
    for (uint32_t byte = 0; byte < 256; byte++) {
        uint32_t rest = byte << 24;
        for (int i = 0; i < 8; i++)
            rest = rest << 1 ^ (rest >> 31 ? 0x04C11DB7 : 0);
        tables[0][byte] = rest;
    }
    for (int k = 1; k < 4; k++)
        for (int byte = 0; byte < 256; byte++)
            tables[k][byte] = tables[k - 1][byte] << 8 ^ tables[0][tables[k - 1][byte] >> 24];
}

static uint32_t twin_parity(const uint8_t *bytes, size_t count)
{
    uint32_t rest = 0;
    size_t i = 0;
    for (; i + 4 <= count; i += 4) {
        uint32_t word = rest ^ ((uint32_t)bytes[i] << 24 | bytes[i + 1] << 16 | bytes[i + 2] << 8 | bytes[i + 3]);
        rest = tables[3][word >> 24] ^ tables[2][word >> 16 & 0xFF] ^ tables[1][word >> 8 & 0xFF] ^ tables[0][word & 0xFF];
    }
    for (; i < count; i++)
        rest = rest << 8 ^ tables[0][rest >> 24 ^ bytes[i]];
    return rest;
}

/* ---- what is recorded: differences as pictures have them, small ones mostly, more so in some sets */

static uint64_t noise(void)
{
    static uint64_t x = 88172645463325252u;
    x ^= x << 13;
    x ^= x >> 7;
    x ^= x << 17;
    return x;
}

static struct recorded *symbols;
static size_t symbol_count;
static uint16_t *bits;
static size_t bit_count;

static void record_bit(int set, int place, bool bit)
{
    bits[bit_count++] = 2 * (32 * set + place) + bit;
}

static void record_symbol(int set, int value)
{
    struct recorded one = {value, set};
    symbols[symbol_count++] = one;
    int magnitude = abs(value);
    record_bit(set, 0, magnitude == 0);
    if (magnitude == 0)
        return;
    int exponent = 31 - __builtin_clz(magnitude);
    for (int i = 0; i <= exponent; i++)
        record_bit(set, 1 + at_most(i, 9), i < exponent);
    for (int i = exponent - 1; i >= 0; i--)
        record_bit(set, 22 + at_most(i, 9), magnitude >> i & 1);
    record_bit(set, 11 + at_most(exponent, 10), value < 0);
}

static void record(void)
{
    symbols = malloc(BITS * sizeof *symbols);
    bits = malloc((BITS + 65) * sizeof *bits);
    if (!symbols || !bits)
        abort();
    while (bit_count < BITS) {
        uint64_t n = noise();
        int set = n % 365;
        int spread = set % 5;
        int magnitude = at_most((__builtin_ctzll(n >> 16 | 1ull << 40) << spread) + (n >> 60) % (1 << spread), 127);
        record_symbol(set, n >> 59 & 1 ? -magnitude : magnitude);
    }
}

/* ---- measuring */

/* Seconds of processor time, so that other programs count less. */
static double now(void)
{
    struct timespec t;
    clock_gettime(CLOCK_PROCESS_CPUTIME_ID, &t);
    return t.tv_sec + t.tv_nsec / 1e9;
}

static uint8_t *out, *part, *noise_bytes;
static size_t out_room, part_count;

static bool same_part(size_t count)
{
    return count == part_count && memcmp(out, part, count) == 0;
}

static bool read_ours(void) { return codec_c_read_bits(part, part_count, bits, bit_count) == 0; }
static bool read_twin(void) { return twin_read(part, part_count, bits, bit_count) == 0; }
static bool write_ours(void) { return same_part(codec_c_write_bits(bits, bit_count, out, out_room)); }
static bool write_twin(void) { return same_part(twin_write(bits, bit_count, out, out_room)); }
static bool read_symbols_ours(void) { return codec_c_read_symbols(part, part_count, symbols, symbol_count) == 0; }
static bool read_symbols_twin(void) { return twin_read_symbols(part, part_count, symbols, symbol_count) == 0; }
static bool write_symbols_ours(void) { return same_part(codec_c_write_symbols(symbols, symbol_count, out, out_room)); }
static bool write_symbols_twin(void) { return same_part(twin_write_symbols(symbols, symbol_count, out, out_room)); }

static uint32_t parity_wanted;
static bool parity_ours(void) { return codec_c_parity(noise_bytes, PARITY_BYTES) == parity_wanted; }
static bool parity_twin(void) { return twin_parity(noise_bytes, PARITY_BYTES) == parity_wanted; }

static double timed(bool (*pass)(void), const char *name)
{
    double start = now();
    bool right = pass();
    double time = now() - start;
    if (!right) {
        fprintf(stderr, "bench/bits: %s: the two sides differ\n", name);
        exit(1);
    }
    return time;
}

static int by_size(const void *a, const void *b)
{
    double x = *(const double *)a, y = *(const double *)b;
    return (x > y) - (x < y);
}

/* The best times of both sides, which take turns, and the median of the rounds' ratios. */
static void measure(const char *name, bool (*ours)(void), bool (*twin)(void), double count, const char *unit)
{
    double best_ours = 1e9, best_twin = 1e9, ratios[ROUNDS];
    for (int round = 0; round < ROUNDS; round++) {
        double twin_time = timed(twin, name), our_time = timed(ours, name);
        best_twin = twin_time < best_twin ? twin_time : best_twin;
        best_ours = our_time < best_ours ? our_time : best_ours;
        ratios[round] = our_time / twin_time;
    }
    qsort(ratios, ROUNDS, sizeof *ratios, by_size);
    printf("%-16s%12.1f%12.1f  %-12s%8.2f\n", name, count / best_ours / 1e6, count / best_twin / 1e6, unit, ratios[ROUNDS / 2]);
}

int main(void)
{
    make_zero_states();
    make_tables();
    record();
    out_room = bit_count + 65;
    out = malloc(out_room);
    part = malloc(out_room);
    noise_bytes = malloc(PARITY_BYTES);
    if (!out || !part || !noise_bytes)
        abort();
    part_count = twin_write(bits, bit_count, part, out_room);
    for (size_t i = 0; i < PARITY_BYTES; i++)
        noise_bytes[i] = noise() >> 32;
    parity_wanted = twin_parity(noise_bytes, PARITY_BYTES);
    printf("%zu bits of %zu symbols in %zu bytes; %d rounds\n", bit_count, symbol_count, part_count, ROUNDS);
    printf("%-16s%12s%12s  %-12s%8s\n", "best of each", "Rattle", "C", "", "time");
    measure("read bits", read_ours, read_twin, bit_count, "M bits/s");
    measure("write bits", write_ours, write_twin, bit_count, "M bits/s");
    measure("read symbols", read_symbols_ours, read_symbols_twin, bit_count, "M bits/s");
    measure("write symbols", write_symbols_ours, write_symbols_twin, bit_count, "M bits/s");
    measure("parity", parity_ours, parity_twin, PARITY_BYTES, "MB/s");
    return 0;
}
