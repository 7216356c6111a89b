#include "main.h"
u16 vram[12 * 20];
static void SetTile(u8 x, u8 y, u16 t) {
    vram[y * 20 + x] = t;
}
static void init(void) {}
static void game(void) {
    static u8 cx, cy;
    if ((pad & RIGHT) && cx < 19)
        cx++;
    if ((pad & LEFT) && cx)
        cx--;
    if ((pad & DOWN) && cy < 11)
        cy++;
    if ((pad & UP) && cy)
        cy--;
    SetTile(cx, cy, frames);
}
