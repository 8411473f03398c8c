/* The same reading by hand in C: frames out of chunks, and logical messages of protocol version 1 (../pgoutput.h).
 *
 * decoder FILE WAY CHUNK TURNS: prints "WAY CHUNK micros N messages N bytes N", TURNS times. The ways: borrowed (messages that point into
 * the payload), owned (and a copy of each row with memory of its own for each cell, which is freed before the next message). */
#include "../pgoutput.h"
#include <time.h>

static double now(void)
{
    struct timespec t;
    clock_gettime(CLOCK_MONOTONIC, &t);
    return t.tv_sec * 1e6 + t.tv_nsec / 1e3;
}

static uint64_t messages, body_bytes;

static void copy_row(const struct tuple *row, struct bytes *copy)
{
    for (unsigned k = 0; k < row->width; k++) {
        struct bytes value = row->cells[k].value;
        unsigned char *at = malloc(value.len ? value.len : 1);
        if (!at)
            fail("out of memory");
        memcpy(at, value.at, value.len);
        copy[k] = (struct bytes){at, value.len};
    }
}

static void own(const struct tuple *row)
{
    struct bytes *copy = malloc(row->width * sizeof *copy);
    if (!copy)
        fail("out of memory");
    copy_row(row, copy);
    for (unsigned k = 0; k < row->width; k++)
        free((void *)copy[k].at);
    free(copy);
}

static void read_payload(const struct deframer *d, int is_owned, struct message *m)
{
    struct bytes body;
    if (!message_of(d, &body))
        return;
    if (!read_message(body, 0, m))
        fail("a message can't be read");
    if (is_owned && m->letter == 'I')
        own(&m->row);
    messages++;
    body_bytes += body.len;
}

static void read_stream(const unsigned char *bytes, size_t len, int is_owned, size_t chunk, struct message *m)
{
    struct deframer d = {0};
    for (size_t at = 0; at < len; at += chunk) {
        size_t n = len - at < chunk ? len - at : chunk, taken = 0;
        for (;;) {
            taken += feed(&d, bytes + at + taken, n - taken);
            if (!is_complete(&d))
                break;
            if (d.header[0] == 'd')
                read_payload(&d, is_owned, m);
            d.header_len = d.len = 0;
        }
    }
    free(d.payload);
}

int main(int argc, char **argv)
{
    if (argc != 5)
        fail("usage: decoder FILE WAY CHUNK TURNS");
    FILE *file = fopen(argv[1], "rb");
    if (!file || fseek(file, 0, SEEK_END))
        fail("cannot read");
    size_t len = ftell(file), chunk = strtoull(argv[3], 0, 10);
    unsigned char *bytes = malloc(len);
    struct message *m = malloc(sizeof *m);
    rewind(file);
    if (!bytes || !m || fread(bytes, 1, len, file) != len || !chunk)
        fail("cannot read");
    for (int turn = atoi(argv[4]); turn > 0; turn--) {
        messages = body_bytes = 0;
        double start = now();
        read_stream(bytes, len, strcmp(argv[2], "owned") == 0, chunk, m);
        printf("%s %zu micros %.0f messages %lu bytes %lu\n", argv[2], chunk, now() - start, messages, body_bytes);
    }
    return 0;
}
