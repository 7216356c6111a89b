#include "main.h"
static u8 buf[64], n;
static void init(void) {}
static void game(void) {
    n = pad & 63;
    memset(buf, rnd(), n);
    memcpy(screen + 16, buf, n);
}
