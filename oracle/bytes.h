/* Bytes in from standard input and out to standard output, with the headers of a freestanding C alone. */
#include <stddef.h>
#include <stdint.h>

extern void *malloc(size_t);
extern void free(void *);
extern void *memcpy(void *, const void *, size_t);
extern int memcmp(const void *, const void *, size_t);
extern long read(int, void *, size_t);
extern long write(int, const void *, size_t);
extern void _exit(int) __attribute__((noreturn));

/* ---- in and out */

static uint8_t in_buffer[1 << 16];
static size_t in_at, in_end;
static char out_buffer[1 << 16];
static size_t out_at;

static void stop(const char *why)
{
    size_t n = 0;
    while (why[n])
        n++;
    (void)!write(2, why, n);
    _exit(2);
}

/* up to n bytes; fewer only where the input ends */
static size_t take(void *to, size_t n)
{
    size_t got = 0;
    while (got < n) {
        if (in_at == in_end) {
            const long more = read(0, in_buffer, sizeof in_buffer);
            if (more <= 0)
                return got;
            in_at = 0;
            in_end = (size_t)more;
        }
        size_t part = in_end - in_at < n - got ? in_end - in_at : n - got;
        memcpy((uint8_t *)to + got, in_buffer + in_at, part);
        in_at += part;
        got += part;
    }
    return got;
}

static void flush(void)
{
    size_t done = 0;
    while (done < out_at) {
        const long n = write(1, out_buffer + done, out_at - done);
        if (n <= 0)
            stop("the output is closed\n");
        done += (size_t)n;
    }
    out_at = 0;
}

/* n bytes, which are there */
static inline void get(void *to, size_t n)
{
    if (take(to, n) != n)
        stop("the input ends inside a call\n");
}

static inline void give(const void *from, size_t n)
{
    for (size_t done = 0; done < n;) {
        if (out_at == sizeof out_buffer)
            flush();
        const size_t part = sizeof out_buffer - out_at < n - done ? sizeof out_buffer - out_at : n - done;
        memcpy(out_buffer + out_at, (const uint8_t *)from + done, part);
        out_at += part;
        done += part;
    }
}

/* ---- memory */

/* what stands around what is lent */
static inline uint8_t filler(size_t i)
{
    return (uint8_t)(i * 37 + 11);
}

/* memory for so many bytes; what it held is gone */
static inline uint8_t *grown(uint8_t *old, size_t *size, size_t wanted)
{
    if (old && wanted <= *size)
        return old;
    free(old);
    *size = wanted + wanted / 2 + 64;
    uint8_t *fresh = malloc(*size);
    if (!fresh)
        stop("no memory\n");
    return fresh;
}

/* n bytes of the input, and a copy behind them */
static inline uint8_t *taken(size_t n)
{
    uint8_t *bytes = malloc(2 * n + 8);
    if (!bytes)
        stop("no memory\n");
    get(bytes, n);
    memcpy(bytes + n, bytes, n);
    return bytes;
}

/* whether such bytes are no longer as they were */
static inline uint64_t changed(const uint8_t *bytes, size_t n)
{
    return memcmp(bytes, bytes + n, n) != 0;
}
