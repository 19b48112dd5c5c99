/* Decodes or encodes each picture of a file that bench/frames writes, by the library codec_c, and tells the seconds of processor time.

   The file: the lengths of the record, the samples of a picture and the pictures, the width and the height, then the record, and for
   each picture its samples and the length of its packet and the packet. Lengths have four bytes, the lowest first. */

#define _POSIX_C_SOURCE 199309L

#include <stdint.h>
#include <stdio.h>
#include <stdlib.h>
#include <string.h>
#include <time.h>

uint64_t codec_c_decode(const uint8_t *record, size_t record_len, uint32_t width, uint32_t height, const uint8_t *packet,
                        size_t packet_len, uint8_t *samples, size_t samples_len);
uint64_t codec_c_encode(const uint8_t *record, size_t record_len, uint32_t width, uint32_t height, const uint8_t *samples,
                        size_t samples_len, uint8_t *packet, size_t packet_room);

static const uint8_t *at;

static uint32_t number(void)
{
    uint32_t n = at[0] | at[1] << 8 | at[2] << 16 | (uint32_t)at[3] << 24;
    at += 4;
    return n;
}

static const uint8_t *bytes(size_t count)
{
    const uint8_t *start = at;
    at += count;
    return start;
}

static void stop(const char *what, uint64_t answer)
{
    fprintf(stderr, "bench/frames: %s, answer %llx\n", what, (unsigned long long)answer);
    exit(1);
}

static uint8_t *whole(const char *name)
{
    FILE *file = fopen(name, "rb");
    if (!file || fseek(file, 0, SEEK_END))
        stop(name, 0);
    long length = ftell(file);
    rewind(file);
    uint8_t *all = malloc(length);
    if (!all || fread(all, 1, length, file) != (size_t)length)
        stop(name, 0);
    fclose(file);
    return all;
}

int main(int count, char **words)
{
    if (count != 3)
        stop("usage: frames decode|encode FILE", 0);
    int decodes = strcmp(words[1], "decode") == 0;
    at = whole(words[2]);
    uint32_t record_len = number(), samples_len = number(), pictures = number(), width = number(), height = number();
    const uint8_t *record = bytes(record_len);
    size_t room = 4 * (size_t)samples_len + 65536;
    uint8_t *out = malloc(room);
    if (!out)
        stop("no memory", 0);
    clock_t start = clock();
    for (uint32_t i = 0; i < pictures; i++) {
        const uint8_t *samples = bytes(samples_len);
        uint32_t packet_len = number();
        const uint8_t *packet = bytes(packet_len);
        uint64_t answer = decodes ? codec_c_decode(record, record_len, width, height, packet, packet_len, out, samples_len)
                                  : codec_c_encode(record, record_len, width, height, samples, samples_len, out, room);
        if (decodes && (answer != 0 || memcmp(out, samples, samples_len)))
            stop("another picture is decoded", answer);
        if (!decodes && answer >> 32)
            stop("nothing is encoded", answer);
    }
    printf("%.6f\n", (double)(clock() - start) / CLOCKS_PER_SEC);
    return 0;
}
