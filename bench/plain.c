/* The same work in plain C: cards, calls, tides, lookup, the listing line. Units as in netvjesha.h. With OWN_ROOT it takes the processor's own square root. */
#include "plain.h"

#include <math.h>
#include <string.h>

enum { CARD = NV_CARD, EPOCHS = 146100, SPEEDS = 500000, FRAMES = NV_ITRF88 + 1 };

static const int64_t METRE = 1461000000; /* grains */
static const int64_t E = 1 << 30;

/* ---- numbers ---- */

/* The nearest whole number to a/b, b positive, an exact half to the even neighbour. */
static inline int64_t near(int64_t a, int64_t b)
{
    int64_t size = a < 0 ? -a : a, q = size / b, r = size % b;
    q += b - r < r + q % 2; /* above a half, or at it with an odd q */
    return a < 0 ? -q : q;
}

static inline int64_t times(int64_t a, int64_t b) { return near(a * b, E); }

#ifdef OWN_ROOT
/* The root of n by the processor's own square root, put right by one where the double was off. */
static inline int64_t root(int64_t n)
{
    int64_t r = (int64_t)sqrt((double)n);
    if (r * r > n) r--;
    else if ((r + 1) * (r + 1) <= n) r++;
    return r;
}
#else
/* The root of n by the library's method, a pair of bits at a time: twice the root so far stands in `found`, what its square leaves of n in `rest`.
 * `taken` is all ones where the bit is set and 0 where not: of an `if` gcc makes a jump here, which no processor can foresee. */
static int64_t root(int64_t n)
{
    uint64_t rest = (uint64_t)n, found = 0;
#pragma GCC unroll 32
    for (uint64_t bit = (uint64_t)1 << 62; bit; bit >>= 2) {
        uint64_t trial = found + bit, taken = -(uint64_t)(rest >= trial);
        rest -= trial & taken;
        found = found >> 1 | (bit & taken);
    }
    return (int64_t)found;
}
#endif

static inline int inside(int64_t v, int64_t most) { return -most <= v && v <= most; }

static inline int all_inside(const int64_t v[3], int64_t most)
{
    return inside(v[0], most) && inside(v[1], most) && inside(v[2], most);
}

/* The sum of v's squares where its root lies from low to high, else 0: a check takes no root. */
static inline int64_t squares_within(const int64_t v[3], int64_t low, int64_t high)
{
    if (!all_inside(v, high)) return 0;
    int64_t n = v[0] * v[0] + v[1] * v[1] + v[2] * v[2];
    return low * low <= n && n < (high + 1) * (high + 1) ? n : 0;
}

static int64_t mark_squares(const int64_t m[3]) { return squares_within(m, 6300000, 6400000); }

static inline void units(const int64_t v[3], int64_t r, int64_t u[3])
{
    for (int i = 0; i < 3; i++) u[i] = near(v[i] * E, r);
}

/* ---- bytes ---- */

static inline uint32_t be32(const uint8_t *s)
{
    uint32_t v;
    memcpy(&v, s, 4);
    return __builtin_bswap32(v);
}

static inline uint64_t be64(const uint8_t *s)
{
    uint64_t v;
    memcpy(&v, s, 8);
    return __builtin_bswap64(v);
}

static inline void put32(uint8_t *s, uint32_t v)
{
    v = __builtin_bswap32(v);
    memcpy(s, &v, 4);
}

static inline void put64(uint8_t *s, uint64_t v)
{
    v = __builtin_bswap64(v);
    memcpy(s, &v, 8);
}

static int site_shape(const uint8_t *s)
{
    for (int i = 0; i < 9; i++)
        if (i == 5 ? s[i] != 'M' && s[i] != 'S' : s[i] < '0' || s[i] > '9') return 0;
    return 1;
}

/* ---- cards ---- */

static int position_fits(const struct card *c)
{
    for (int i = 0; i < 3; i++) {
        int64_t centre = METRE * c->mark[i];
        if (c->position[i] < centre - 1000 * METRE || c->position[i] > centre + 1000 * METRE) return 0;
    }
    return 1;
}

static int velocity_fits(const struct card *c)
{
    for (int i = 0; i < 3; i++)
        if (!inside(c->velocity[i], SPEEDS)) return 0;
    return 1;
}

static void mark_of(const struct card *c, int64_t m[3])
{
    for (int i = 0; i < 3; i++) m[i] = c->mark[i];
}

uint32_t plain_read(const uint8_t *s, size_t n, struct card *c)
{
    if (n != CARD) return 1;
    if (!site_shape(s)) return 2;
    memcpy(c->site, s, 9);
    c->frame = s[9];
    c->tide = s[10];
    c->epoch = (int32_t)be32(s + 12);
    for (int i = 0; i < 3; i++) {
        c->mark[i] = (int32_t)be32(s + 16 + 4 * i);
        c->velocity[i] = (int32_t)be32(s + 28 + 4 * i);
        c->position[i] = (int64_t)be64(s + 40 + 8 * i);
        c->solid[i] = (int64_t)be64(s + 64 + 8 * i);
    }
    if (c->frame >= FRAMES) return 3;
    if (c->tide > 2 || s[11] || (c->tide != 2 && (c->solid[0] | c->solid[1] | c->solid[2]))) return 4;
    if (!inside(c->epoch, EPOCHS)) return 5;
    int64_t m[3];
    mark_of(c, m);
    if (!mark_squares(m)) return 6;
    if (!velocity_fits(c)) return 7;
    if (!position_fits(c)) return 8;
    if (!all_inside(c->solid, METRE)) return 9;
    return 0;
}

static void write_card(const struct card *c, uint8_t *s)
{
    memcpy(s, c->site, 9);
    s[9] = c->frame;
    s[10] = c->tide;
    s[11] = 0;
    put32(s + 12, (uint32_t)c->epoch);
    for (int i = 0; i < 3; i++) {
        put32(s + 16 + 4 * i, (uint32_t)c->mark[i]);
        put32(s + 28 + 4 * i, (uint32_t)c->velocity[i]);
        put64(s + 40 + 8 * i, (uint64_t)c->position[i]);
        put64(s + 64 + 8 * i, (uint64_t)c->solid[i]);
    }
}

/* The output's length, then the card's own checks. */
static uint32_t begin(const uint8_t *card, size_t n, size_t m, struct card *c) { return m != CARD ? 1 : plain_read(card, n, c); }

/* The last check of every call, and the write. */
static uint32_t end(const struct card *c, uint8_t *out)
{
    if (!position_fits(c)) return 8;
    write_card(c, out);
    return 0;
}

uint32_t plain_move(const uint8_t *card, size_t n, int64_t d, uint8_t *out, size_t m)
{
    struct card c;
    uint32_t r = begin(card, n, m, &c);
    if (r) return r;
    if (c.tide == 2) return 13;
    if (!inside(d, 2 * EPOCHS) || !inside(c.epoch + d, EPOCHS)) return 5;
    c.epoch += (int32_t)d;
    for (int i = 0; i < 3; i++) c.position[i] += c.velocity[i] * d;
    return end(&c, out);
}

/* ---- frames: two lines of the table to each, T in 0.1 mm, D in 0.01 ppb, R in 0.01 mas, and the same a year ---- */

static const struct line {
    int64_t t[3], d, r[3];
} table[FRAMES][2] = {
    {{{0, 0, 0}, 0, {0, 0, 0}}, {{0, 0, 0}, 0, {0, 0, 0}}},
    {{{-20, -9, -47}, 94, {0, 0, 0}}, {{3, 0, 0}, 0, {0, 0, 0}}},
    {{{-19, -17, -105}, 134, {0, 0, 0}}, {{1, 1, -18}, 8, {0, 0, 0}}},
    {{{48, 26, -332}, 292, {0, 0, 6}}, {{1, -5, -32}, 9, {0, 0, 2}}},
    {{{48, 26, -332}, 292, {0, 0, 6}}, {{1, -5, -32}, 9, {0, 0, 2}}},
    {{{48, 26, -332}, 292, {0, 0, 6}}, {{1, -5, -32}, 9, {0, 0, 2}}},
    {{{-240, 24, -386}, 341, {-171, -148, -30}}, {{-28, -1, -24}, 9, {-11, -19, 7}}},
    {{{128, 46, -412}, 221, {0, 0, 6}}, {{1, -5, -32}, 9, {0, 0, 2}}},
    {{{248, 186, -472}, 361, {0, 0, 6}}, {{1, -5, -32}, 9, {0, 0, 2}}},
    {{{228, 146, -632}, 391, {0, 0, 6}}, {{1, -5, -32}, 9, {0, 0, 2}}},
    {{{278, 386, -1012}, 731, {0, 0, 6}}, {{1, -5, -32}, 9, {0, 0, 2}}},
    {{{228, 26, -1252}, 1041, {10, 0, 6}}, {{1, -5, -32}, 9, {0, 0, 2}}},
};

/* near(a/10^14) of an a of up to 77 bits: 10^14 is 5^14 << 14, so that after the shift 64 bits are enough. */
static inline int64_t near_micro(__int128 a)
{
    const uint64_t five = 6103515625, low = (1 << 14) - 1;
    unsigned __int128 size = a < 0 ? -(unsigned __int128)a : (unsigned __int128)a;
    uint64_t high = (uint64_t)(size >> 14), q = high / five, r = (high % five) << 14 | ((uint64_t)size & low);
    q += (five << 14) - r < r + q % 2;
    return a < 0 ? -(int64_t)q : (int64_t)q;
}

/* T, and what scale and rotation give: k to the micrometre. s is what the rotations give, in 0.01 mas x metres. */
static inline int64_t term(int64_t k, int64_t t, int64_t d, int64_t m, int64_t s)
{
    if (s == 0) return 100 * k * t + near(k * d * m, 100000);
    return 100 * k * t + near_micro(k * (1000000000 * d * m + (__int128)4848136811 * s));
}

/* A line at a mark: with k = 1,461 A in grains, with k = 1 B in micrometres a year. */
static inline void terms(int64_t k, const struct line *p, const int64_t m[3], int64_t out[3])
{
    const int64_t *t = p->t, *r = p->r, d = p->d;
    out[0] = term(k, t[0], d, m[0], r[1] * m[2] - r[2] * m[1]);
    out[1] = term(k, t[1], d, m[1], r[2] * m[0] - r[0] * m[2]);
    out[2] = term(k, t[2], d, m[2], r[0] * m[1] - r[1] * m[0]);
}

uint32_t plain_frame(const uint8_t *card, size_t n, uint32_t frame, uint8_t *out, size_t m)
{
    struct card c;
    uint32_t r = begin(card, n, m, &c);
    if (r) return r;
    if (frame >= FRAMES) return 3;
    int64_t mark[3], a[2][3], b[2][3];
    mark_of(&c, mark);
    for (int i = 0; i < 2; i++) {
        const struct line *row = table[i ? frame : c.frame];
        terms(1461, row, mark, a[i]);
        terms(1, row + 1, mark, b[i]);
    }
    for (int i = 0; i < 3; i++) {
        int64_t gain = b[1][i] - b[0][i];
        c.velocity[i] += (int32_t)gain;
        c.position[i] += a[1][i] - a[0][i] + gain * c.epoch;
    }
    c.frame = (uint8_t)frame;
    if (!velocity_fits(&c)) return 7;
    return end(&c, out);
}

/* ---- tides, grains ---- */

static inline int64_t legendre(int64_t s) { return near(3 * s - E, 2); }

/* P of a mark, from its unit vector. */
static inline int64_t latitude(const int64_t u[3]) { return legendre(times(u[2], u[2])); }

static void permanent(const int64_t m[3], int64_t shift[3])
{
    int64_t u[3];
    units(m, root(mark_squares(m)), u);
    int64_t s = times(u[2], u[2]), p = legendre(s), e = times(146100, p);
    int64_t a = times(e - 176196600, p), t = -36817200 - e, w = times(t, s);
    shift[0] = times(a - 2 * w, u[0]);
    shift[1] = times(a - 2 * w, u[1]);
    shift[2] = times(a + 2 * t - 2 * w, u[2]);
}

static uint32_t mean(const uint8_t *card, size_t n, int from, int sign, uint8_t *out, size_t m)
{
    struct card c;
    int64_t mark[3], shift[3];
    uint32_t r = begin(card, n, m, &c);
    if (r) return r;
    if (c.tide != from) return 12;
    mark_of(&c, mark);
    permanent(mark, shift);
    for (int i = 0; i < 3; i++) c.position[i] += sign * shift[i];
    c.tide = (uint8_t)(1 - from);
    return end(&c, out);
}

uint32_t plain_mean_on(const uint8_t *card, size_t n, uint8_t *out, size_t m) { return mean(card, n, 0, 1, out, m); }

uint32_t plain_mean_off(const uint8_t *card, size_t n, uint8_t *out, size_t m) { return mean(card, n, 1, -1, out, m); }

/* A body: its range and reference distance in its own unit, and K0 of degree two and of three in grains. The Sun has no degree three. */
struct kind {
    int64_t low, high, r0, k0, k0_3;
};

static const struct kind moon = {350000000, 410000000, 384400000, 523578453, 8687448};
static const struct kind sun = {146000000, 153000000, 149597870, 240449078, 0};

static inline int finite3(const double *v) { return isfinite(v[0]) && isfinite(v[1]) && isfinite(v[2]); }

/* The whole vector of a body and the sum of its squares, 0 where its distance is out of range. */
static inline int64_t seen(const struct kind *k, const double *v, int64_t at[3])
{
    for (int i = 0; i < 3; i++) {
        if (fabs(v[i]) > 1e9) return 0;
        at[i] = llrint(v[i]); /* an exact half to the even neighbour, as C rounds unless told otherwise */
    }
    return squares_within(at, k->low, k->high);
}

/* near((a E + b p) k/(10,000 E)), grains: neither factor is negative, and the product has up to 72 bits. */
static inline int64_t share(int64_t a, int64_t b, int64_t p, int64_t k)
{
    unsigned __int128 n = (unsigned __int128)(uint64_t)(a * E + b * p) * (uint64_t)k;
    int64_t whole = (int64_t)(n >> 30), q = whole / 10000, r = whole % 10000 * E + (int64_t)((uint64_t)n & (uint64_t)(E - 1));
    return q + (10000 * E - r < r + q % 2);
}

static inline void add_part(const struct kind *k, const int64_t u[3], int64_t p, const int64_t at[3], int64_t r, int64_t shift[3])
{
    int64_t q = near(k->r0 * E, r), q3 = times(times(q, q), q), strength = times(k->k0, q3);
    int64_t d[3], across[3];
    units(at, r, d);
    int64_t c = near(u[0] * d[0] + u[1] * d[1] + u[2] * d[2], E), c2 = times(c, c);
    int64_t rho = times(share(6078, -6, p, strength), legendre(c2));
    int64_t t = 3 * times(share(847, 2, p, strength), c);
    for (int i = 0; i < 3; i++) {
        across[i] = d[i] - times(c, u[i]);
        shift[i] += near(rho * u[i] + t * across[i], E);
    }
    if (!k->k0_3) return;
    strength = times(k->k0_3, times(q3, q));
    rho = times(near(292 * strength, 1000), near(5 * times(c2, c) - 3 * c, 2));
    t = times(near(15 * strength, 1000), near(15 * c2 - 3 * E, 2));
    for (int i = 0; i < 3; i++) shift[i] += near(rho * u[i] + t * across[i], E);
}

/* 10, 11, or 0 and the tide, at a mark with the unit vector u and P p. */
static inline uint32_t pair_tide(const int64_t u[3], int64_t p, const double *v, const double *w, int64_t shift[3])
{
    int64_t a[3], b[3];
    if (!finite3(v) || !finite3(w)) return 10;
    int64_t na = seen(&moon, v, a), nb = seen(&sun, w, b);
    if (!na || !nb) return 11;
    shift[0] = shift[1] = shift[2] = 0;
    add_part(&moon, u, p, a, root(na), shift);
    add_part(&sun, u, p, b, root(nb), shift);
    return 0;
}

uint32_t plain_solid_on(const uint8_t *card, size_t n, uint32_t la, double ax, double ay, double az,
                        uint32_t lb, double bx, double by, double bz, uint8_t *out, size_t m)
{
    struct card c;
    uint32_t r = begin(card, n, m, &c);
    if (r) return r;
    if (c.tide != 0) return 12;
    if (la > 1 || lb > 1 || la == lb) return 17;
    double a[3] = {ax, ay, az}, b[3] = {bx, by, bz};
    int64_t mark[3], u[3];
    mark_of(&c, mark);
    units(mark, root(mark_squares(mark)), u);
    int64_t p = latitude(u);
    r = la == 0 ? pair_tide(u, p, a, b, c.solid) : pair_tide(u, p, b, a, c.solid);
    if (r) return r;
    for (int i = 0; i < 3; i++) c.position[i] += c.solid[i];
    c.tide = 2;
    return end(&c, out);
}

uint32_t plain_solid_off(const uint8_t *card, size_t n, uint8_t *out, size_t m)
{
    struct card c;
    uint32_t r = begin(card, n, m, &c);
    if (r) return r;
    if (c.tide != 2) return 12;
    for (int i = 0; i < 3; i++) {
        c.position[i] -= c.solid[i];
        c.solid[i] = 0;
    }
    c.tide = 0;
    return end(&c, out);
}

/* Number + 256 x (rows, or the bad row). All rows are looked at before the first number is written. */
uint64_t plain_series(int64_t x, int64_t y, int64_t z, const double *bodies, size_t n, int64_t *out, size_t m)
{
    int64_t mark[3] = {x, y, z}, u[3], n2 = mark_squares(mark), at[3];
    size_t count = m / 3;
    if (!n2) return 6;
    if (m != 3 * count || n != 6 * count) return 16;
    for (size_t i = 0; i < count; i++) {
        const double *row = bodies + 6 * i;
        if (!finite3(row) || !finite3(row + 3)) return 10 + 256 * (uint64_t)i;
        if (!seen(&moon, row, at) || !seen(&sun, row + 3, at)) return 11 + 256 * (uint64_t)i;
    }
    units(mark, root(n2), u);
    int64_t p = latitude(u);
    for (size_t i = 0; i < count; i++) pair_tide(u, p, bodies + 6 * i, bodies + 6 * i + 3, out + 3 * i);
    return 256 * (uint64_t)count;
}

/* ---- catalogues ---- */

size_t plain_find(const uint8_t *catalogue, size_t len, const uint8_t *key, size_t key_len)
{
    if (key_len != 9 || !site_shape(key) || len % CARD) return len;
    for (size_t at = 0; at < len; at += CARD)
        if (!memcmp(catalogue + at, key, 9)) return at;
    return len;
}

static char *put_number(char *to, int64_t v)
{
    char digits[20];
    int n = 0;
    uint64_t u = v < 0 ? -(uint64_t)v : (uint64_t)v;
    *to++ = ' ';
    if (v < 0) *to++ = '-';
    do digits[n++] = (char)('0' + u % 10);
    while (u /= 10);
    while (n) *to++ = digits[--n];
    return to;
}

size_t plain_line(const uint8_t *part, size_t n, char *line)
{
    struct card c;
    char *to = line;
    uint32_t r = plain_read(part, n, &c);
    if (r) {
        memcpy(to, "refused", 7);
        to = put_number(to + 7, r);
    } else {
        memcpy(to, c.site, 9);
        to = put_number(put_number(to + 9, c.frame), c.epoch);
        for (int i = 0; i < 3; i++) to = put_number(to, c.position[i]);
    }
    *to++ = '\n';
    return (size_t)(to - line);
}
