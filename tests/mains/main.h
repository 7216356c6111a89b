/* What each main of this folder begins with: names, and a loop that plays `game` once a frame of game-handler.S. */
#include <avr/io.h>
#include <avr/interrupt.h>
#include <avr/pgmspace.h>
#include <string.h>
#include <stdlib.h>
typedef uint8_t u8;
typedef uint16_t u16;
typedef int8_t s8;
typedef int16_t s16;
extern u8 screen[256];
extern volatile u8 row, line, frames;
/* as if another wrote it: nothing is known of it */
static volatile u16 pad;
__attribute__((unused)) static u16 seed = 1;
__attribute__((unused)) static u8 rnd(void) {
    seed ^= seed << 7;
    seed ^= seed >> 9;
    seed ^= seed << 8;
    return seed;
}
#define P(x, y) screen[(u8)((y)*16 + (x))]
#define BTN_B 1
#define BTN_Y 2
#define BTN_START 8
#define UP 16
#define DOWN 32
#define LEFT 64
#define RIGHT 128
#define BTN_A 256
static void init(void);
static void game(void);
int main(void) {
    u8 seen = 0;
    DDRA = 12;
    DDRB = 1;
    DDRC = 255;
    PORTB = 1;
    row = line = 0;
    init();
    OCR1A = 1819;
    TIMSK1 = 2;
    TCCR1B = 9;
    sei();
    for (;;) {
        __asm__ volatile("loop:" ::: "memory");
        if (frames == seen)
            continue;
        seen = frames;
        game();
    }
}
