/* Calls every function of netvjesha.h on the vectors of tests/make_face.py (standard input), and compares the answer, every
 * element of the output, the input, and the guard bytes around both. A line: the function, its arguments, the answer, what
 * the output holds afterwards. Bytes are hexadecimal, doubles are their 16 hexadecimal digits, `-` is none.
 */
#include <inttypes.h>
#include <stdio.h>
#include <stdlib.h>
#include <string.h>
#include "netvjesha.h"

enum { GUARD = 32, MOST = 4096, FILL = 0xA5, EDGE = 0xC3 };

/* A lent buffer between two guards, and what it must hold after the call. NULL where it is empty. */
struct lent {
    unsigned char all[GUARD + MOST + GUARD] __attribute__((aligned(16)));
    unsigned char want[MOST];
    size_t size;
    void *at;
};

static struct lent in, key, out;
static unsigned long line, passed;
static char name[32], word[2 * MOST + 2];

static void stop(const char *why)
{
    fprintf(stderr, "face: line %lu, %s: %s\n", line, name, why);
    exit(1);
}

static const char *next(void)
{
    if (scanf("%8193s", word) != 1) stop("a word is missing");
    return word;
}

static int64_t number(void) { return strtoll(next(), NULL, 10); }

static double bits(void)
{
    uint64_t u = strtoull(next(), NULL, 16);
    double d;
    memcpy(&d, &u, sizeof d);
    return d;
}

static void lend(struct lent *l, size_t size)
{
    if (size > MOST) stop("too long");
    memset(l->all, EDGE, sizeof l->all);
    memset(l->all + GUARD, FILL, size);
    memset(l->want, FILL, size);
    memset(l->all + GUARD + size, EDGE, GUARD);
    l->size = size;
    l->at = size ? l->all + GUARD : NULL;
}

/* Bytes of the next word into `to`; their count. */
static size_t hex(unsigned char *to)
{
    const char *w = next();
    size_t n = 0;
    if (*w == '-') return 0;
    for (; w[2 * n]; n++) {
        unsigned byte;
        if (sscanf(w + 2 * n, "%2x", &byte) != 1) stop("not hexadecimal");
        to[n] = (unsigned char)byte;
    }
    return n;
}

static void bytes_into(struct lent *l)
{
    unsigned char bytes[MOST];
    size_t n = hex(bytes);
    lend(l, n);
    memcpy(l->all + GUARD, bytes, n);
    memcpy(l->want, bytes, n);
}

static void input_bytes(void) { bytes_into(&in); }

static void input_doubles(void)
{
    size_t n = (size_t)number();
    lend(&in, 8 * n);
    for (size_t i = 0; i < n; i++) {
        double d = bits();
        memcpy(in.all + GUARD + 8 * i, &d, 8);
        memcpy(in.want + 8 * i, &d, 8);
    }
}

static void whole(const struct lent *l, const char *what)
{
    for (size_t i = 0; i < GUARD; i++)
        if (l->all[i] != EDGE || l->all[GUARD + l->size + i] != EDGE) stop("a byte beside the buffer was written");
    if (memcmp(l->all + GUARD, l->want, l->size)) stop(what);
}

/* What is expected: the answer, then the output's elements of `width` bytes, unless refused. */
static void expect(uint64_t answer, size_t width)
{
    uint64_t want = strtoull(next(), NULL, 10);
    if (width == 1) {
        hex(out.want);
    } else {
        size_t count = (size_t)number();
        for (size_t i = 0; i < count; i++) {
            uint64_t u = width == 8 ? strtoull(next(), NULL, 16) : (uint64_t)number();
            memcpy(out.want + 8 * i, &u, 8);
        }
    }
    if (answer != want) {
        fprintf(stderr, "face: answered %" PRIu64 ", not %" PRIu64 "\n", answer, want);
        stop("answer");
    }
    whole(&in, "the input was written");
    whole(&out, "the output differs");
    passed++;
}

enum { BYTES = 1, DOUBLES = 8, NUMBERS = 9 };

static void card_call(void)
{
    input_bytes();
    uint32_t label[2] = {0, 0};
    double b[6] = {0};
    int64_t d = 0;
    if (!strcmp(name, "move") || !strcmp(name, "frame")) d = number();
    if (!strcmp(name, "solid_on"))
        for (int i = 0; i < 2; i++) {
            label[i] = (uint32_t)number();
            for (int k = 0; k < 3; k++) b[3 * i + k] = bits();
        }
    lend(&out, (size_t)number());
    const uint8_t *c = in.at;
    uint8_t *o = out.at;
    size_t n = in.size, m = out.size;
    uint32_t r = 0;
    if (!strcmp(name, "move")) r = nv_move(c, n, d, o, m);
    else if (!strcmp(name, "frame")) r = nv_frame(c, n, (uint32_t)d, o, m);
    else if (!strcmp(name, "mean_on")) r = nv_mean_on(c, n, o, m);
    else if (!strcmp(name, "mean_off")) r = nv_mean_off(c, n, o, m);
    else if (!strcmp(name, "solid_on")) r = nv_solid_on(c, n, label[0], b[0], b[1], b[2], label[1], b[3], b[4], b[5], o, m);
    else if (!strcmp(name, "solid_off")) r = nv_solid_off(c, n, o, m);
    else if (!strcmp(name, "export")) r = nv_export(c, n, o, m);
    else if (!strcmp(name, "expand")) r = nv_expand(c, n, o, m);
    else stop("no such function");
    expect(r, BYTES);
}

static void metres(void)
{
    input_bytes();
    lend(&out, 8 * (size_t)number());
    expect(nv_metres(in.at, in.size, out.at, out.size / 8), DOUBLES);
}

static void permanent(void)
{
    int64_t x = number(), y = number(), z = number();
    lend(&in, 0);
    lend(&out, 8 * (size_t)number());
    expect(nv_permanent(x, y, z, out.at, out.size / 8), NUMBERS);
}

static void series(void)
{
    int64_t x = number(), y = number(), z = number();
    input_doubles();
    lend(&out, 8 * (size_t)number());
    expect(nv_series(x, y, z, in.at, in.size / 8, out.at, out.size / 8), NUMBERS);
}

/* A lookup's place, then its number; nothing is lent to be written. */
static void find(void)
{
    bytes_into(&key);
    input_bytes();
    lend(&out, 0);
    expect(nv_find(in.at, in.size, key.at, key.size), BYTES);
    whole(&key, "the key was written");
    expect(nv_find_number(in.at, in.size, key.at, key.size), BYTES);
    whole(&key, "the key was written");
}

int main(void)
{
    while (scanf("%31s", name) == 1) {
        line++;
        if (!strcmp(name, "check")) {
            input_bytes();
            lend(&out, 0);
            expect(nv_check(in.at, in.size), BYTES);
        } else if (!strcmp(name, "check_catalogue")) {
            input_bytes();
            lend(&out, 0);
            expect(nv_check_catalogue(in.at, in.size), BYTES);
        } else if (!strcmp(name, "metres")) metres();
        else if (!strcmp(name, "permanent")) permanent();
        else if (!strcmp(name, "series")) series();
        else if (!strcmp(name, "find")) find();
        else card_call();
    }
    if (passed == 0) stop("no vectors");
    printf("face: %lu checks passed\n", passed);
    return 0;
}
