/* Times the C face against the same work in plain C (plain.c), in one process: the series, a chain of calls, lookup.
 * Both get the same input, take turns, and must give the same answers and the same bytes; the best of their turns counts.
 * With a file's name and a count it writes a catalogue of that many cards instead, for the listing.
 * Built with OWN_ROOT, as plain.c then is too, it times the series and the calls alone, against plain C with the processor's own square root.
 * A line: what, how many, nanoseconds for each of ours and of plain C, their ratio (1.0 is equal), how many a second.
 */
#include <math.h>
#include <stdio.h>
#include <stdlib.h>
#include <string.h>
#include <time.h>
#include "netvjesha.h"
#include "plain.h"

#ifdef OWN_ROOT
enum { OWN = 1 };
#else
enum { OWN = 0 };
#endif

static uint64_t state = 88172645463325252u;

static uint64_t chance(void)
{
    state ^= state << 13;
    state ^= state >> 7;
    return state ^= state << 17;
}

static double between(double low, double high) { return low + (high - low) * ((double)(chance() >> 11) / 9007199254740992.0); }

static double now(void)
{
    struct timespec t;
    clock_gettime(CLOCK_MONOTONIC, &t);
    return (double)t.tv_sec * 1e9 + (double)t.tv_nsec;
}

static void *room(size_t count, size_t size)
{
    void *p = calloc(count ? count : 1, size);
    if (!p) {
        fprintf(stderr, "bench: no memory for %zu x %zu bytes\n", count, size);
        exit(1);
    }
    return p;
}

static void agree(int same, const char *what)
{
    if (same) return;
    fprintf(stderr, "bench: %s: the two do not agree\n", what);
    exit(1);
}

/* A vector of a length, in any direction. */
static void direction(double length, double v[3])
{
    double n;
    do {
        for (int i = 0; i < 3; i++) v[i] = between(-1, 1);
        n = v[0] * v[0] + v[1] * v[1] + v[2] * v[2];
    } while (n > 1 || n < 0.01);
    for (int i = 0; i < 3; i++) v[i] *= length / sqrt(n);
}

/* A Moon in metres, a Sun in kilometres. */
static void two_bodies(double v[6])
{
    direction(between(357e6, 406e6), v);
    direction(between(147.2e6, 152e6), v + 3);
}

/* ---- cards ---- */

static void put(uint8_t *s, int width, int64_t v)
{
    for (int i = width; i-- > 0; v >>= 8) s[i] = (uint8_t)v;
}

static void card_of(uint8_t s[NV_CARD], unsigned long number)
{
    double m[3];
    char site[24];
    direction(between(6357e3, 6378e3), m);
    snprintf(site, sizeof site, "%05luM%03lu", number / 1000 % 100000, number % 1000);
    memset(s, 0, NV_CARD);
    memcpy(s, site, 9);
    put(s + 12, 4, (int64_t)between(-20000, 20000));
    for (int i = 0; i < 3; i++) {
        int64_t whole = llround(m[i]);
        put(s + 16 + 4 * i, 4, whole);
        put(s + 28 + 4 * i, 4, (int64_t)between(-50000, 50000));
        put(s + 40 + 8 * i, 8, 1461000000 * whole + (int64_t)between(-1e10, 1e10));
    }
}

/* Ten calls in a row on one card, each from one buffer into the other; how many were accepted. */
#define CHAIN(name, pre)                                                                                               \
    static unsigned name(uint8_t a[NV_CARD], uint8_t b[NV_CARD], const double v[6])                                              \
    {                                                                                                                  \
        unsigned yes = 0;                                                                                              \
        yes += !pre##_move(a, NV_CARD, 1461, b, NV_CARD);                                                                        \
        yes += !pre##_frame(b, NV_CARD, NV_ITRF2005, a, NV_CARD);                                                                \
        yes += !pre##_mean_on(a, NV_CARD, b, NV_CARD);                                                                           \
        yes += !pre##_move(b, NV_CARD, -700, a, NV_CARD);                                                                        \
        yes += !pre##_frame(a, NV_CARD, NV_ITRF93, b, NV_CARD);                                                                  \
        yes += !pre##_mean_off(b, NV_CARD, a, NV_CARD);                                                                          \
        yes += !pre##_solid_on(a, NV_CARD, 0, v[0], v[1], v[2], 1, v[3], v[4], v[5], b, NV_CARD);                                \
        yes += !pre##_frame(b, NV_CARD, NV_ITRF2008, a, NV_CARD);                                                                \
        yes += !pre##_solid_off(a, NV_CARD, b, NV_CARD);                                                                         \
        yes += !pre##_move(b, NV_CARD, 4000, a, NV_CARD);                                                                        \
        return yes;                                                                                                    \
    }

CHAIN(our_chain, nv)
CHAIN(plain_chain, plain)

/* ---- what is timed: one turn of each; `side` 0 is ours, 1 is plain C ---- */

static size_t count;
static double *bodies;
static int64_t *tides[2];
static uint8_t *fresh, *cards[2], *catalogue, key[9];
static uint64_t answer[2];

static void series(int side)
{
    answer[side] = (side ? plain_series : nv_series)(4075580, 931853, 4801568, bodies, 6 * count, tides[side], 3 * count);
}

static void calls(int side)
{
    uint8_t other[NV_CARD];
    answer[side] = 0;
    for (size_t i = 0; i < count; i++)
        answer[side] += (side ? plain_chain : our_chain)(cards[side] + NV_CARD * i, other, bodies + 6 * (i % 1000));
}

static void lookup(int side) { answer[side] = (side ? plain_find : nv_find)(catalogue, NV_CARD * count, key, 9); }

/* Nanoseconds of the best turn of each side, once the turns took half a second, nine of each at least. `again` makes the input anew. */
static void race(const char *what, size_t each, void (*turn)(int), void (*again)(void))
{
    double best[2] = {1e300, 1e300}, spent = 0;
    for (int k = 0; k < 9 || spent < 5e8; k++) {
        if (again) again();
        for (int j = 0; j < 2; j++) {
            int side = (k + j) % 2;
            double from = now();
            turn(side);
            double took = now() - from;
            spent += took;
            if (took < best[side]) best[side] = took;
        }
        agree(answer[0] == answer[1], what);
    }
    double ours = best[0] / (double)each, plain = best[1] / (double)each;
    printf("%-24s %8zu %9.2f %9.2f %6.2f %12.0f\n", what, each, ours, plain, ours / plain, 1e9 / ours);
    fflush(stdout);
}

static void fresh_cards(void)
{
    for (int side = 0; side < 2; side++) memcpy(cards[side], fresh, NV_CARD * count);
}

static void lookups(size_t n)
{
    memcpy(catalogue, fresh, NV_CARD * n);
    memcpy(key, catalogue + NV_CARD * (n - 1), 9);
    race("lookup, records", n, lookup, NULL);
    agree(answer[0] == NV_CARD * (n - 1), "lookup");

    /* the dearest catalogue: every record but the last is unlike in the ninth byte only */
    for (size_t i = 0; i < n; i++) memcpy(catalogue + NV_CARD * i, i + 1 < n ? "12345M678" : "12345M679", 9);
    memcpy(key, "12345M679", 9);
    race("lookup, eight bytes like", n, lookup, NULL);
    agree(answer[0] == NV_CARD * (n - 1), "lookup");
}

static void all_of(size_t n)
{
    count = n;
    size_t rows = n < 1000 ? 1000 : n;
    bodies = room(6 * rows, sizeof *bodies);
    for (size_t i = 0; i < rows; i++) two_bodies(bodies + 6 * i);
    fresh = room(n, NV_CARD);
    catalogue = room(n, NV_CARD);
    for (int side = 0; side < 2; side++) {
        tides[side] = room(3 * n, sizeof **tides);
        cards[side] = room(n, NV_CARD);
    }
    /* 1,000,003 and the number of sites have no common factor: every site once, in no order */
    for (size_t i = 0; i < n; i++) card_of(fresh + NV_CARD * i, (unsigned long)(1000003 * (i + 1) % 100000000));

    race(OWN ? "series, own root" : "series, rows", n, series, NULL);
    agree(answer[0] == 256 * (uint64_t)n && !memcmp(tides[0], tides[1], 24 * n), "series");

    race(OWN ? "calls, own root" : "calls, cards of 10 calls", n, calls, fresh_cards);
    agree(answer[0] == 10 * (uint64_t)n && !memcmp(cards[0], cards[1], NV_CARD * n), "calls");

    if (!OWN) lookups(n);

    free(bodies), free(fresh), free(catalogue);
    for (int side = 0; side < 2; side++) free(tides[side]), free(cards[side]);
}

int main(int argc, char **argv)
{
    if (argc == 3) {
        FILE *f = fopen(argv[1], "wb");
        uint8_t s[NV_CARD];
        for (unsigned long i = 0, n = strtoul(argv[2], NULL, 10); f && i < n; i++) {
            card_of(s, i);
            if (fwrite(s, NV_CARD, 1, f) != 1) break;
        }
        if (!f || fclose(f)) return perror(argv[1]), 1;
        return 0;
    }
    if (!OWN) printf("%-24s %8s %9s %9s %6s %12s\n", "what", "count", "ours, ns", "plain, ns", "ratio", "ours a second");
    for (size_t n = 1000; n <= 1000000; n *= 10) all_of(n);
    return 0;
}
