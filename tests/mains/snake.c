#include "main.h"
static u8 bx[64], by[64], head, len = 3, dir;
static u8 fx, fy;
static void init(void) {}
static void game(void) {
    if (frames & 7)
        return;
    u16 b = pad;
    if (b & UP)
        dir = 0;
    if (b & DOWN)
        dir = 1;
    if (b & LEFT)
        dir = 2;
    if (b & RIGHT)
        dir = 3;
    u8 x = bx[head], y = by[head];
    if (dir == 0)
        y--;
    if (dir == 1)
        y++;
    if (dir == 2)
        x--;
    if (dir == 3)
        x++;
    x &= 15;
    y &= 15;
    u8 t = (head - len) & 63;
    P(bx[t], by[t]) = 0;
    head = (head + 1) & 63;
    bx[head] = x;
    by[head] = y;
    if (x == fx && y == fy) {
        if (len < 60)
            len++;
        fx = rnd() & 15;
        fy = rnd() & 15;
    }
    P(x, y) = 28;
    P(fx, fy) = 7;
}
