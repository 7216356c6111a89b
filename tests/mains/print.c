#include "main.h"
static const char t1[] PROGMEM = "SCORE";
static const char t2[] PROGMEM = "GAME OVER";
static u8 over;
static void print(u8 x, u8 y, const char *s) {
    u16 a = y * 16 + x;
    char c;
    while ((c = pgm_read_byte(s++)))
        screen[a++] = c - 32;
}
static void init(void) {}
static void game(void) {
    print(1, 0, t1);
    if (over)
        print(3, 7, t2);
    if (pad & BTN_A)
        over = !over;
}
