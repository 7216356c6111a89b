#include "main.h"
static const s8 sn[32] PROGMEM = {0, 25,  49,  71,  90,  106,  117,  125,  127,  125,  117,  106,  90,  71,  49,  25,
                                  0, -25, -49, -71, -90, -106, -117, -125, -127, -125, -117, -106, -90, -71, -49, -25};
static u8 a;
static void init(void) {}
static void game(void) {
    a++;
    for (u8 i = 0; i < 16; i++) {
        s8 v = pgm_read_byte(&sn[(a + i * 2) & 31]);
        u8 y = 8 + ((v * 7) >> 7);
        screen[y * 16 + i] = 63;
    }
}
