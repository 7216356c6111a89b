#include "main.h"
static u8 ai, x, y, dir, t;
static void init(void) {}
static void game(void) {
    switch (ai) {
    case 0:
        x++;
        if (x > 14)
            ai = 1;
        break;
    case 1:
        y++;
        if (y > 14)
            ai = 2;
        break;
    case 2:
        x--;
        if (!x)
            ai = 3;
        break;
    case 3:
        y--;
        if (!y)
            ai = 4;
        break;
    case 4:
        t = 30;
        ai = 5;
        break;
    case 5:
        if (!--t)
            ai = 6;
        break;
    case 6:
        dir = rnd() & 3;
        ai = 7;
        break;
    case 7:
        x += dir;
        ai = 8;
        break;
    case 8:
        y ^= dir;
        ai = 9;
        break;
    case 9:
        P(x, y) = t;
        ai = 10;
        break;
    case 10:
        P(0, 0) = dir;
        ai = 11;
        break;
    default:
        ai = 0;
    }
    P(x, y) = 63;
}
