/* netvjesha: station cards as bytes. Link with libnetvjesha.a (`tests/archive` makes it), for x86-64.
 *
 * Units      1,461 grains are a micrometre, 1,461,000,000 grains a metre.
 *            Time is whole quarter-days from 2000.0; 1,461 of them are a year.
 * Rounding   To the nearest whole number, an exact half to the even neighbour: in every step, in the field edition, and of a
 *            body's doubles. nv_metres divides doubles, and rounds as they do.
 * Card       88 bytes. Field record: 48 bytes. Both big-endian, two's complement. docs/RULES.md has both layouts, byte by byte.
 * Status     A number, 0 when accepted. Most functions answer it; nv_series and nv_check_catalogue answer it + 256 x a count, so
 *            that it is the answer % 256; nv_find answers a place and no status. The numbers beside a function stand in the
 *            order in which they are looked for, and the first that is met is given. A refused call writes nothing.
 * Slices     A pointer and a count of elements. A count of 0 may come with NULL. Input and output must not overlap.
 *
 *  1 a length          2 site              3 unknown frame          4 byte 10, a zero byte, or a tide vector with no tide on
 *  5 epoch             6 mark              7 velocity               8 position too far from the mark
 *  9 tide vector      10 body not finite  11 body out of range     12 tide already so, not on, or of the other kind
 * 13 move with solid tide on              14 catalogue's length    15 not in the catalogue
 * 16 series lengths                       17 not one Moon and one Sun
 */
#ifndef NETVJESHA_H
#define NETVJESHA_H

#include <stddef.h>
#include <stdint.h>

#ifdef __cplusplus
extern "C" {
#endif

#define NV_CARD 88   /* bytes of a card */
#define NV_FIELD 48  /* bytes of a field record */
#define NV_MOON 0    /* a label; metres */
#define NV_SUN 1     /* a label; kilometres */

/* The frames of Table 4.1 (IERS Conventions 2010), newest first: their codes, in byte 9 of a card and for nv_frame. */
#define NV_ITRF2008 0
#define NV_ITRF2005 1
#define NV_ITRF2000 2
#define NV_ITRF97 3
#define NV_ITRF96 4
#define NV_ITRF94 5
#define NV_ITRF93 6
#define NV_ITRF92 7
#define NV_ITRF91 8
#define NV_ITRF90 9
#define NV_ITRF89 10
#define NV_ITRF88 11

/* ---- Cards ---- */

/* A card's own checks.
 * Status: 1 not 88 bytes, then 2, 3, 4, 5, 6, 7, 8, 9. */
uint32_t nv_check(const uint8_t *card, size_t card_len);

/* ---- Calls: from a card into `out`, 88 bytes ----
 * Status of each: 1 out_len is not 88; then those of nv_check; then its own.
 *
 * Two instruments on one pillar: give both cards the same calls, and see that each call is accepted by both or refused by both. If at
 * first they have the same mark, frame, epoch, byte 10 and tide vector, they always will; the difference of their velocities stays;
 * and the vector between their positions, in grains, gains that difference, in micrometres a year, times the accepted moves, in
 * quarter-days. Frames and tides leave it as it is, to the grain. */

/* Moves a card by d quarter-days; d may be 0 or negative. Position in grains gains velocity x d.
 * Status, its own: 13, 5, 8. */
uint32_t nv_move(const uint8_t *card, size_t card_len, int64_t d, uint8_t *out, size_t out_len);

/* Shifts a card to a frame, NV_ITRF2008 to NV_ITRF88. Position in grains, velocity in micrometres a year: translation, scale and
 * rotation of the table at the card's mark and epoch, rounded once. By way of another frame is as direct, and back is exact.
 * Any other code, however large, is unknown: 3.
 * Status, its own: 3, 7, 8. */
uint32_t nv_frame(const uint8_t *card, size_t card_len, uint32_t frame, uint8_t *out, size_t out_len);

/* Adds the permanent shift, in grains: tide-free to mean-tide.
 * Status, its own: 12, 8. */
uint32_t nv_mean_on(const uint8_t *card, size_t card_len, uint8_t *out, size_t out_len);

/* Takes the permanent shift away, in grains: mean-tide to tide-free.
 * Status, its own: 12, 8. */
uint32_t nv_mean_off(const uint8_t *card, size_t card_len, uint8_t *out, size_t out_len);

/* Adds the solid tide of a Moon and a Sun, in either order, in grains, and stores it in the card: degree two of both, with h
 * and l of the mark's latitude, and degree three of the Moon.
 * A body is a label and three doubles: NV_MOON in metres, NV_SUN in kilometres. Any other label, however large, is no body: 17.
 * Status, its own: 12, 17, 10, 11, 8. */
uint32_t nv_solid_on(const uint8_t *card, size_t card_len,
                     uint32_t label_a, double ax, double ay, double az,
                     uint32_t label_b, double bx, double by, double bz,
                     uint8_t *out, size_t out_len);

/* Takes the stored solid tide away, in grains, as it is stored.
 * Status, its own: 12, 8. */
uint32_t nv_solid_off(const uint8_t *card, size_t card_len, uint8_t *out, size_t out_len);

/* ---- The field edition: offsets in 0.1 mm, velocities in 0.1 mm a year ---- */

/* Writes the field record of a card, 48 bytes.
 * Status: 1 field_len is not 48; then those of nv_check; then 12 solid tide on. */
uint32_t nv_export(const uint8_t *card, size_t card_len, uint8_t *field, size_t field_len);

/* Writes the card of a field record, 88 bytes, with no solid tide.
 * Status: 1 out_len is not 88; then 1 field_len is not 48; then 2, 3, 4, 5, 6, 7, 8 of the record. */
uint32_t nv_expand(const uint8_t *field, size_t field_len, uint8_t *out, size_t out_len);

/* ---- Catalogues: cards one after another, 88 bytes each, no header ---- */

/* Checks a whole catalogue: its length, then every card up to the first bad one.
 * Answers the status + 256 x (the number of cards when accepted; the place of the first bad card, counted in cards from 0; 0 with 14).
 * Status: 14 len is no multiple of 88; then the first bad card's own, 2, 3, 4, 5, 6, 7, 8, 9. */
uint64_t nv_check_catalogue(const uint8_t *catalogue, size_t len);

/* Looks a site up: the first record whose first nine bytes are the key's. The record itself is not judged; nv_check does that.
 * Status: 2 the key is not nine bytes of a site's shape; then 14 len is no multiple of 88; then 15 no such record. */
uint32_t nv_find_number(const uint8_t *catalogue, size_t len, const uint8_t *key, size_t key_len);

/* Where that record begins, in bytes from the catalogue's start: a multiple of 88 below len. Answers len when refused. */
size_t nv_find(const uint8_t *catalogue, size_t len, const uint8_t *key, size_t key_len);

/* ---- Displacements ---- */

/* The distance of a card's position from its mark: 3 doubles, metres.
 * Status: 1 out_len is not 3; then those of nv_check. */
uint32_t nv_metres(const uint8_t *card, size_t card_len, double *out, size_t out_len);

/* The permanent shift at a mark of whole metres, from tide-free to mean-tide: 3 numbers, grains. Each lies within 2,922 grains
 * (2 micrometres) of the conventions' formula at the mark's real distance, and within 100 at its whole one.
 * Status: 1 out_len is not 3; then 6. */
uint32_t nv_permanent(int64_t x, int64_t y, int64_t z, int64_t *out, size_t out_len);

/* The solid tides at a mark of whole metres, row by row, as nv_solid_on stores them. `bodies` has n doubles, six to a row:
 * Moon in metres, Sun in kilometres. `out` has m numbers, three to a row, grains. Each lies within 2,922 grains (2 micrometres) of
 * the conventions' formula at the real distances, the bodies rounded to wholes, and within 100 at the whole ones.
 * Answers the status + 256 x (the number of rows, or the first bad row, counted from 0, with 10 or 11; 0 with 6 or 16).
 * Status: 6; then 16 unless n is 6 and m is 3 to each of one count of rows; then 10 or 11 of the first bad row. */
uint64_t nv_series(int64_t x, int64_t y, int64_t z, const double *bodies, size_t n, int64_t *out, size_t m);

#ifdef __cplusplus
}
#endif

#endif
