#include "main.h"
static const u16 shapes[7][4] PROGMEM = {{0x0F00, 0x2222, 0x00F0, 0x4444}, {0x44C0, 0x8E00, 0x6440, 0x0E20},
                                         {0x4460, 0x0E80, 0xC440, 0x2E00}, {0xCC00, 0xCC00, 0xCC00, 0xCC00},
                                         {0x06C0, 0x8C40, 0x6C00, 0x4620}, {0x0E40, 0x4C40, 0x4E00, 0x4640},
                                         {0x0C60, 0x4C80, 0xC600, 0x2640}};
static u8 well[16][10], sh, rot;
static s8 x, y;
static u8 fits(s8 px, s8 py, u8 r) {
    u16 m = pgm_read_word(&shapes[sh][r]);
    for (u8 j = 0; j < 4; j++)
        for (u8 i = 0; i < 4; i++, m <<= 1)
            if (m & 0x8000) {
                s8 a = px + i, b = py + j;
                if (a < 0 || a > 9 || b > 15)
                    return 0;
                if (b >= 0 && well[b][a])
                    return 0;
            }
    return 1;
}
static void lock(void) {
    u16 m = pgm_read_word(&shapes[sh][rot]);
    for (u8 j = 0; j < 4; j++)
        for (u8 i = 0; i < 4; i++, m <<= 1)
            if (m & 0x8000) {
                s8 a = x + i, b = y + j;
                if (a >= 0 && a < 10 && b >= 0 && b < 16)
                    well[b][a] = sh + 1;
            }
}
static void init(void) {}
static void game(void) {
    if ((pad & LEFT) && fits(x - 1, y, rot))
        x--;
    if ((pad & BTN_A) && fits(x, y, (rot + 1) & 3))
        rot = (rot + 1) & 3;
    if (fits(x, y + 1, rot))
        y++;
    else {
        lock();
        y = 0;
        x = 3;
        sh = rnd() % 7;
        rot = 0;
    }
    for (u8 j = 0; j < 16; j++)
        for (u8 i = 0; i < 10; i++)
            P(i, j) = well[j][i];
}
