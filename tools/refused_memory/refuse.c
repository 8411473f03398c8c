/* Loaded in front of the C library: refuses one request for memory, the one with the number in REFUSE, counted from 1; with a number
   below 0 this one and all after it, so that -1 refuses all. At the end the number of requests goes to the file that REFUSE_COUNT names. */
#include <stddef.h>
#include <stdio.h>
#include <stdlib.h>

extern void *__libc_malloc(size_t), *__libc_realloc(void *, size_t), *__libc_calloc(size_t, size_t);

static long count, refused;
static int is_read;

static int refuses(void)
{
    if (!is_read) {
        const char *number = getenv("REFUSE");
        refused = number ? atol(number) : 0;
        is_read = 1;
    }
    count++;
    return refused < 0 ? count >= -refused : count == refused;
}

void *malloc(size_t n) { return refuses() ? NULL : __libc_malloc(n); }
void *calloc(size_t n, size_t of) { return refuses() ? NULL : __libc_calloc(n, of); }
void *realloc(void *old, size_t n) { return refuses() ? NULL : __libc_realloc(old, n); }

__attribute__((destructor)) static void tell(void)
{
    const char *name = getenv("REFUSE_COUNT");
    long all = count;
    /* (opening the file takes memory too) */
    refused = 0;
    is_read = 1;
    FILE *file = name ? fopen(name, "w") : NULL;
    if (file) {
        fprintf(file, "%ld\n", all);
        fclose(file);
    }
}
