#include "main.h"
static void init(void) {}
static void game(void) {
    u8 hist[16];
    memset(hist, 0, sizeof hist);
    for (u16 i = 0; i < 256; i++)
        hist[screen[i] & 15]++;
    for (u8 i = 0; i < 16; i++)
        P(i, 15) = hist[i];
    P(pad & 15, 3) = rnd();
}
