#include "main.h"
typedef struct {
    u8 x, y, kind, timer, hp;
} Obj;
static Obj o[8];
static void init(void) {
    for (u8 i = 0; i < 8; i++) {
        o[i].x = i;
        o[i].hp = 3;
    }
}
static void game(void) {
    for (u8 i = 0; i < 8; i++) {
        Obj *p = &o[i];
        if (!p->hp)
            continue;
        p->x++;
        if (p->x > 15)
            p->x = 0;
        if (--p->timer == 0) {
            p->kind ^= 1;
            p->timer = 20;
        }
        P(p->x, p->y) = p->kind;
    }
}
