#include "main.h"
static u8 map[12][16];
static u8 px, py;
static void init(void) {
    memset(map, 1, sizeof map);
}
static void game(void) {
    u8 nx = px, ny = py;
    if ((pad & LEFT) && nx > 0)
        nx--;
    if ((pad & RIGHT) && nx < 15)
        nx++;
    if ((pad & UP) && ny > 0)
        ny--;
    if ((pad & DOWN) && ny < 11)
        ny++;
    if (map[ny][nx] != 2) {
        map[py][px] = 0;
        px = nx;
        py = ny;
        map[py][px] = 3;
    }
    for (u8 y = 0; y < 12; y++)
        for (u8 x = 0; x < 16; x++)
            P(x, y) = map[y][x];
}
