#include "main.h"
static const u8 lvl[] PROGMEM = {20, 1, 12, 2, 100, 0, 60, 3, 30, 4, 34, 5, 0};
static u8 map[256];
static u8 load;
static void init(void) {
    load = 1;
}
static void game(void) {
    if (!load) {
        if (pad & BTN_START)
            load = 1;
        return;
    }
    load = 0;
    const u8 *s = lvl;
    u8 *d = map;
    u8 n;
    while ((n = pgm_read_byte(s++))) {
        u8 v = pgm_read_byte(s++);
        do
            *d++ = v;
        while (--n);
    }
    memcpy(screen, map, 256);
}
