/* The same work in plain C, to measure against: no proof, the same answers. */
#ifndef PLAIN_H
#define PLAIN_H

#include <stddef.h>
#include <stdint.h>
#include "netvjesha.h"

/* A card as C holds it. Units are the record's: whole metres, micrometres a year, grains. */
struct card {
    uint8_t site[9], frame, tide;
    int32_t epoch, mark[3], velocity[3];
    int64_t position[3], solid[3];
};

/* A number of netvjesha.h, 0 when accepted. */
uint32_t plain_read(const uint8_t *s, size_t n, struct card *c);

uint32_t plain_move(const uint8_t *card, size_t n, int64_t d, uint8_t *out, size_t m);
uint32_t plain_frame(const uint8_t *card, size_t n, uint32_t frame, uint8_t *out, size_t m);
uint32_t plain_mean_on(const uint8_t *card, size_t n, uint8_t *out, size_t m);
uint32_t plain_mean_off(const uint8_t *card, size_t n, uint8_t *out, size_t m);
uint32_t plain_solid_on(const uint8_t *card, size_t n, uint32_t la, double ax, double ay, double az,
                        uint32_t lb, double bx, double by, double bz, uint8_t *out, size_t m);
uint32_t plain_solid_off(const uint8_t *card, size_t n, uint8_t *out, size_t m);

uint64_t plain_series(int64_t x, int64_t y, int64_t z, const double *bodies, size_t n, int64_t *out, size_t m);

size_t plain_find(const uint8_t *catalogue, size_t len, const uint8_t *key, size_t key_len);

/* The listing line of a part of n bytes into `line`, at most 120 bytes; how many it has. */
size_t plain_line(const uint8_t *part, size_t n, char *line);

#endif
