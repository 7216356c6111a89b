#include "main.h"
static u8 brick[5][14];
static u8 bx = 7, by = 12, dx, dy, pos = 5;
static void init(void) {
    memset(brick, 2, sizeof brick);
}
static void game(void) {
    if ((pad & LEFT) && pos > 0)
        pos--;
    if ((pad & RIGHT) && pos < 11)
        pos++;
    P(bx, by) = 0;
    if (dx) {
        if (++bx >= 14) {
            bx = 13;
            dx = 0;
        }
    } else if (bx == 0)
        dx = 1;
    else
        bx--;
    if (dy)
        by++;
    else if (by == 0)
        dy = 1;
    else
        by--;
    if (by < 5 && brick[by][bx]) {
        brick[by][bx]--;
        dy ^= 1;
    }
    if (by >= 15) {
        if (bx >= pos && bx < pos + 4)
            dy = 0;
        else {
            bx = 7;
            by = 8;
        }
    }
    P(bx, by) = 63;
}
