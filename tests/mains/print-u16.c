#include "main.h"
static u16 score;
static u8 buf[6];
static void init(void) {}
static void game(void) {
    u16 v = score;
    u8 i = 0;
    do {
        buf[i++] = v % 10;
        v /= 10;
    } while (v);
    u8 x = 10;
    while (i)
        P(x++, 0) = buf[--i] + 16;
    if (pad & BTN_A)
        score += 25;
}
