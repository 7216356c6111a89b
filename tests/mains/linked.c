#include "main.h"
static u8 next[16], val[16];
static u8 head = 255, freel;
static void init(void) {
    for (u8 i = 0; i < 15; i++)
        next[i] = i + 1;
    next[15] = 255;
}
static void game(void) {
    if ((pad & BTN_A) && freel != 255) {
        u8 n = freel;
        freel = next[n];
        next[n] = head;
        head = n;
        val[n] = rnd();
    }
    if ((pad & BTN_B) && head != 255) {
        u8 n = head;
        head = next[n];
        next[n] = freel;
        freel = n;
    }
    u8 k = 0;
    for (u8 i = head; i != 255; i = next[i])
        P(k++, 2) = val[i];
}
