#include "main.h"
typedef struct {
    u8 x, y, kind, timer, hp, col;
    u8 dx;
} Obj;
static Obj o[8];
static u8 cur;
static void init(void) {}
static void game(void) {
    if (pad & BTN_A) {
        cur = (cur + 1) & 7;
    }
    o[cur].x = frames & 15;
    o[cur].y++;
    o[cur].col = rnd();
    P(o[cur].x, o[cur].y & 15) = o[cur].col;
}
