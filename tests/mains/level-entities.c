#include "main.h"
typedef struct {
    u8 kind, x, y;
} Ent;
static const Ent e[] PROGMEM = {{1, 3, 4}, {2, 7, 8}, {1, 12, 2}, {3, 5, 5}, {0, 0, 0}};
static Ent live[8];
static u8 n, load = 1;
static void init(void) {}
static void game(void) {
    if (load) {
        load = 0;
        n = 0;
        const Ent *p = e;
        while (pgm_read_byte(&p->kind)) {
            memcpy_P(&live[n], p, sizeof(Ent));
            n++;
            p++;
        }
    }
    for (u8 i = 0; i < n; i++) {
        live[i].x = (live[i].x + 1) & 15;
        P(live[i].x, live[i].y) = live[i].kind;
    }
    if (pad & BTN_START)
        load = 1;
}
