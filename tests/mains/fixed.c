#include "main.h"
typedef struct {
    s16 x, y, dx, dy;
} Ball;
static Ball b;
static void init(void) {
    b.dx = 30;
    b.dy = 17;
}
static void game(void) {
    P((u8)(b.x >> 8) & 15, (u8)(b.y >> 8) & 15) = 0;
    b.dy += 4;
    b.x += b.dx;
    b.y += b.dy;
    if (b.x < 0 || b.x >= 16 << 8) {
        b.dx = -b.dx;
        b.x += b.dx;
    }
    if (b.y >= 15 << 8) {
        b.y = 15 << 8;
        b.dy = -(b.dy * 3 / 4);
    }
    P((u8)(b.x >> 8), (u8)(b.y >> 8)) = 63;
}
