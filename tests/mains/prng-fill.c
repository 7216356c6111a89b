#include "main.h"
static u16 s32 = 0xACE1;
static u8 lfsr(void) {
    u8 b = s32 & 1;
    s32 >>= 1;
    if (b)
        s32 ^= 0xB400;
    return s32;
}
static void init(void) {}
static void game(void) {
    for (u8 i = 0; i < 20; i++) {
        u8 r = lfsr();
        P(r & 15, r >> 4) = lfsr();
    }
    u16 n = lfsr() % 200;
    screen[n] = 7;
}
