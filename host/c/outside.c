/* A program outside of the repository: what host/install-lib installed is all that it knows.
 *
 *   cc outside.c $(pkg-config --cflags --libs juolgesot) */
#include <juolgesot.h>
#include <stdio.h>

static uint32_t room[JUOLGESOT_SET_ROOM];
static uint32_t out[JUOLGESOT_MOST_ROUNDS * JUOLGESOT_ROUND_WORDS];

int main(void)
{
    /* Bits 0 and 1 of word 0, bit 5 of word 1, and bit 0 of word 0 of the new state. */
    static const uint32_t set[] = {0, 3, 1, 0x20, 0x80000000u, 1};
    uint64_t first, second;
    uint32_t refused = juolgesot_read_rounds(set, sizeof set / sizeof *set, room, JUOLGESOT_SET_ROOM, out,
                                             sizeof out / sizeof *out, JUOLGESOT_FULL, &first, &second);
    if (refused != 0) {
        printf("refused %u at %llu\n", refused, (unsigned long long)second);
        return 1;
    }
    printf("rounds %llu\n", (unsigned long long)first);
    for (unsigned lane = 0; lane < 3; lane++)
        printf("%u: word %08x, mask %08x\n", lane, out[2 * lane], out[2 * lane + 1]);
    return first == 1 && out[4] == 0x80000000u && out[5] == 1 ? 0 : 1;
}
