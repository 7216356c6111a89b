/* A ball in a box, over the kernel of game-handler.S. docs/KERNELS.md compiles and certifies it. */
#include <avr/interrupt.h>
#include <avr/io.h>
#include <string.h>

extern uint8_t screen[256];                  /* the kernel's: 16 rows of 16 colours */
extern volatile uint8_t row, line, frames;   /* the kernel's: the place in the frame, and frames shown so far */

static uint8_t x = 3, y = 5, right = 1, down = 1, seen;
static uint16_t score, number = 1;
static volatile uint16_t pressed;            /* buttons of player 1 */

/* The index is a byte, so the address is known to be one of 256. */
static void put(uint8_t column, uint8_t to, uint8_t colour) { screen[(uint8_t)(to * 16 + column)] = colour; }

static uint8_t random8(void)
{
    number = number * 25173u + 13849u;
    return number >> 8;
}

/* What lies in RAM is unknown to the search. A word in registers would be 2, 4, 8 .. 4096 known words. */
static void read_pad(void)
{
    PORTA |= 4;
    PORTA &= ~4;
    for (uint8_t i = 0; i < 12; i++) {
        pressed = (PINA & 1 ? 0 : 0x800) | pressed >> 1;
        PORTA |= 8;
        PORTA &= ~8;
    }
}

/* A colour for each of four decimal digits. */
static void show(uint16_t n)
{
    for (uint8_t i = 0; i < 4; i++) {
        put(13 - i, 1, (n % 10 + 1) * 9);
        n /= 10;
    }
}

static void walls(uint8_t at)
{
    put(at, 0, 7);
    put(at, 15, 7);
    put(0, at, 7);
    put(15, at, 7);
}

static void bounce(uint8_t to_right)
{
    right = to_right;
    score += 1 + random8() % 10;
}

/* B wipes the screen, Left and Right push the ball. */
static void move(uint8_t buttons)
{
    put(x, y, random8() & 0xC0);
    if (buttons & 1) memset(screen, 0, sizeof screen);
    if (buttons & 0x40 && x > 1) x--;
    if (buttons & 0x80 && x < 14) x++;
    if (x <= 1) bounce(1);
    if (x >= 14) bounce(0);
    if (y <= 2) down = 1;
    if (y >= 14) down = 0;
    x = right ? x + 1 : x - 1;
    y = down ? y + 1 : y - 1;
    put(x, y, 0x3F);
}

int main(void)
{
    DDRA = 12;
    DDRB = 1;
    DDRC = 255;
    PORTB = 1;
    row = line = 0;
    OCR1A = 1819;
    TIMSK1 = 2;
    TCCR1B = 9;
    sei();
    for (;;) {
        __asm__ volatile("loop:"); /* here the claim begins */
        if (frames == seen) continue;
        seen = frames;
        read_pad();
        walls(seen & 15);
        move(pressed);
        show(score);
    }
}
