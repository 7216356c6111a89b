/* Main in C over the tile kernel of tiles-handler.asm: a walker leaves a trail on the map and eats fruit, and a score is
   shown in decimal digits. A pointer that stores is bounded by a mask, since the certifier learns nothing from a compare.
   docs/TILES.md has the commands that make a certificate of it. */
#include <avr/interrupt.h>
#include <avr/io.h>
#include <stdint.h>

/* The kernel's RAM, as in tiles-memory.asm */
#define PHASE  (*(volatile uint8_t *)0x100)
#define LEFT   (*(volatile uint8_t *)0x101)
#define STEP   (*(volatile uint8_t *)0x104)
#define PADS   (*(volatile uint8_t *)0x105) /* B Y Select Start up down left right, from bit 0 on */
#define FRAMES (*(volatile uint8_t *)0x107)
#define MAP    ((uint8_t *)0x200)           /* 840 bytes; main may store to all of 0x200 to 0x5FF */

enum { PULSES = 6, COLUMNS = 30, ROWS = 28 };
enum { UP = 16, DOWN = 32, LEFTWARD = 64, RIGHTWARD = 128 };
enum { BRICK, FRAME, TRAIL, FRUIT };

static uint8_t column = 14, row = 14, seen;
static uint16_t score, random_state = 1;

static uint8_t *cell(uint8_t x, uint8_t y) { return &MAP[(y * COLUMNS + x) & 1023]; }

static uint8_t random_byte(void)
{
    random_state = random_state * 25173u + 13849u;
    return random_state >> 8;
}

/* five digits in the top row, by the tiles that there are */
static void show(uint16_t number)
{
    for (uint8_t i = 0; i < 5; i++) {
        *cell(6 - i, 0) = number % 10 & 3;
        number /= 10;
    }
}

static void walk(void)
{
    uint8_t pad = PADS;
    if (pad & UP && row > 1) row--;
    if (pad & DOWN && row < ROWS - 2) row++;
    if (pad & LEFTWARD && column > 1) column--;
    if (pad & RIGHTWARD && column < COLUMNS - 2) column++;
    if (*cell(column, row) == FRUIT) {
        score += 1 + random_byte() % 7;
        show(score);
    }
    *cell(column, row) = TRAIL;
    STEP = (STEP + column) & 31;
}

static void draw(void)
{
    for (uint8_t y = 0; y < ROWS; y++)
        for (uint8_t x = 0; x < COLUMNS; x++) {
            uint8_t is_frame = y == 0 || y == ROWS - 1 || x == 0 || x == COLUMNS - 1;
            *cell(x, y) = is_frame ? FRAME : (x ^ y) & 1 ? FRUIT : BRICK;
        }
}

int main(void)
{
    draw();
    DDRA = 12;
    DDRB = 1;
    DDRC = 255;
    PORTB = 1;
    STEP = 2;
    PHASE = 0;
    LEFT = PULSES;
    OCR1A = 1819;
    TIMSK1 = 2;
    TCCR1B = 9;
    sei();
    for (;;) {
        asm volatile("loop:");
        uint8_t now = FRAMES;
        if (now == seen) continue;
        seen = now;
        if (now & 3) continue;
        walk();
    }
}
