/* The listing in plain C: cards on standard input, a line each on standard output. */
#include <stdio.h>
#include "plain.h"

int main(void)
{
    uint8_t part[NV_CARD];
    char line[120];
    size_t n;
    while ((n = fread(part, 1, sizeof part, stdin)) > 0)
        if (!fwrite(line, plain_line(part, n, line), 1, stdout)) return 1;
    return 0;
}
