/* The same measurement by hand in C: a deframer that copies each payload once into a buffer that it keeps. */
#include <stdint.h>
#include <stdio.h>
#include <stdlib.h>
#include <string.h>
#include <time.h>

#define STREAM_LEN 71000000u
#define MAX_FRAME 16777216u

struct deframer {
    unsigned char header[5], *payload;
    size_t header_len, len, room;
};

static size_t payload_len(const struct deframer *d)
{
    const unsigned char *h = d->header;
    return ((size_t)h[1] << 24 | h[2] << 16 | h[3] << 8 | h[4]) - 4;
}

static int is_whole(const struct deframer *d)
{
    return d->header_len == 5 && d->len == payload_len(d);
}

static void grow(struct deframer *d, size_t need)
{
    size_t room = 2 * d->room > need ? 2 * d->room : need;
    d->payload = realloc(d->payload, room);
    if (!d->payload)
        exit(1);
    d->room = room;
}

/* takes bytes up to the end of one frame */
static size_t feed(struct deframer *d, const unsigned char *piece, size_t n)
{
    size_t taken = 0;
    while (d->header_len < 5 && taken < n) {
        d->header[d->header_len++] = piece[taken++];
        if (d->header_len == 1 && d->header[0] != 'd' && d->header[0] != 'c')
            exit(2);
    }
    if (d->header_len < 5)
        return taken;
    size_t whole = payload_len(d), more = whole - d->len;
    if (whole > MAX_FRAME)
        exit(2);
    if (more > n - taken)
        more = n - taken;
    if (more) {
        if (d->len + more > d->room)
            grow(d, d->len + more);
        memcpy(d->payload + d->len, piece + taken, more);
        d->len += more;
    }
    return taken + more;
}

static double now(void)
{
    struct timespec t;
    clock_gettime(CLOCK_MONOTONIC, &t);
    return t.tv_sec * 1e6 + t.tv_nsec / 1e3;
}

static size_t stream(unsigned char *bytes, uint32_t payload_len)
{
    size_t n = 0;
    do {
        uint32_t length = payload_len + 4;
        bytes[n++] = 'd';
        for (int shift = 24; shift >= 0; shift -= 8)
            bytes[n++] = length >> shift;
        for (uint32_t i = 0; i < payload_len; i++)
            bytes[n++] = i % 251;
    } while (n < STREAM_LEN && payload_len < 8000000);
    return n;
}

static void measure(unsigned char *bytes, uint32_t payload, size_t piece)
{
    size_t len = stream(bytes, payload);
    struct deframer d = {0};
    uint64_t frames = 0, sum = 0;
    double start = now();
    for (size_t at = 0; at < len; at += piece) {
        size_t n = len - at < piece ? len - at : piece, taken = 0;
        for (;;) {
            taken += feed(&d, bytes + at + taken, n - taken);
            if (!is_whole(&d))
                break;
            sum += d.len ? d.payload[d.len - 1] : 0;
            frames++;
            d.header_len = d.len = 0;
        }
    }
    printf("payload %u pieces %zu bytes %zu micros %.0f frames %lu sum %lu\n", payload, piece, len, now() - start, frames, sum);
    free(d.payload);
}

int main(void)
{
    unsigned char *bytes = malloc(STREAM_LEN + 2 * (size_t)MAX_FRAME);
    if (!bytes)
        return 1;
    measure(bytes, 79, 4096);
    measure(bytes, 79, 1000000);
    measure(bytes, 1000, 4096);
    measure(bytes, 16000000, 4096);
    measure(bytes, 16000000, 1);
    measure(bytes, 8000000, 1);
    return 0;
}
