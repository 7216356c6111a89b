/* The library libuzebox_c.a: Uzebox consoles played a frame at a time, and the commands of `uzebox` over files in memory.
 *
 *     cc -o program program.c libuzebox_c.a
 *
 * The archive has the toolchain's heap, over malloc, realloc and free.
 *
 * No call keeps anything: the host keeps the text and the state, and any content of them is safe. A call reads and writes what its
 * arguments name and nothing else. Different states may be played by different threads at the same time.
 *
 * Clocks are those of the processor: 28,636,360 a second. A line of NTSC has 1,820 of them, and a frame some 480,000. */
#ifndef UZEBOX_H
#define UZEBOX_H

#include <stddef.h>
#include <stdint.h>

#ifdef __cplusplus
extern "C" {
#endif

/* A console between two calls. To save a state is to copy the struct, to load one is to copy it back: it goes with the HEX text that
 * it was made from. The host reads what it likes, and may write anything: numbers that are too great are taken modulo their range. */

typedef struct {
    uint16_t pc;            /* a word address below 32,768 */
    uint16_t sp;
    uint8_t registers[32];  /* R0 to R31 */
    uint8_t sreg;
    uint8_t owed;           /* 0, or one instruction is made before an interrupt is taken */
} uzebox_core;

typedef struct {
    uint16_t count;         /* TCNT1 */
    uint16_t top;           /* OCR1A */
    uint8_t matched;        /* OCF1A: 0 or not */
    uint8_t temp;           /* TEMP */
    uint8_t interrupt_mask; /* TIMSK1 */
    uint8_t control_a;      /* TCCR1A */
    uint8_t control_b;      /* TCCR1B */
    uint8_t unused;
} uzebox_timer;

typedef struct {
    uint16_t one, two;      /* the pair that the last latch loaded */
    uint8_t latched;        /* 0 where no latch has loaded one */
    uint8_t level;          /* PORTA */
    uint8_t moves;          /* moves to a next button since that latch, up to 12 */
    uint8_t unused;
} uzebox_pads;

typedef struct {
    uint64_t clock;         /* the last edge's */
    uint64_t start;         /* the clock of the fall that began the line, where has_start isn't 0 */
    uint64_t low;           /* clocks from that fall to the line's rise, where has_low isn't 0 */
    uint64_t frame;         /* frames that have begun */
    uint64_t rows;          /* lines of the frame that have ended */
    uint64_t filled;        /* so many samples of the line are known, up to 455 */
    uint8_t has_start, has_low;
    uint8_t is_high;        /* the sync level: 0 or not */
    uint8_t after_broad;    /* 0, or the line before had a broad pulse */
    uint8_t sound;          /* OCR2A as the picture has seen it */
    uint8_t pixel;          /* PORTC as the picture has seen it */
    uint8_t samples[455];   /* of the line that runs */
    uint8_t row[455];       /* of the last line that ended */
    uint8_t unused[4];
} uzebox_picture;

typedef struct {
    uint64_t clock;
    uint16_t value;
    uint8_t kind;           /* 0 sync, 1 pixel, 2 sound, 3 an interrupt is entered, 4 and more: it is left */
    uint8_t unused[5];
} uzebox_edge;

typedef struct {
    uint64_t clock;         /* since reset */
    uzebox_core core;
    uzebox_timer timer;
    uzebox_pads pads;
    uzebox_picture picture;
    uzebox_edge edges[4];   /* of the last instruction; none once there is no next one */
    uint8_t edge_count;     /* so many they are, up to 4 */
    uint8_t edges_seen;     /* so many of them the picture has seen */
    uint8_t response;       /* an interrupt is entered in 5 clocks, or in 4 where this isn't 5 */
    uint8_t unused[5];
    uint8_t bytes[4352];    /* the data space, by its addresses: ports and RAM as they were stored */
} uzebox_state;

/* How a call of live play ended. */
enum {
    UZEBOX_FRAME = 0,       /* the frame is over (uzebox_reset: the state is at reset) */
    UZEBOX_QUIET = 1,       /* so many clocks passed without the end of a frame: the next call goes on with it */
    UZEBOX_STOPPED = 2,     /* the next instruction isn't known or is SPM: each further call ends so */
    UZEBOX_NO_HEX = 3,      /* the text isn't Intel HEX; the state stays */
    UZEBOX_SHORT = 4,       /* the records need more room, and length says how much; the state stays */
    UZEBOX_NO_MEMORY = 5    /* the state stays */
};

typedef struct {
    uint32_t status;
    uint32_t latches;       /* so many times the kernel read the pads: write the pair so often into a pad file, and `uzebox play` and
                               `uzebox trace` find the same buttons */
    uint64_t length;        /* bytes of records that were written, or are needed */
} uzebox_answer;

/* The state at reset of the console with this flash, an Intel HEX text. `response` is 4 or 5: clocks of an interrupt's entry. */
uzebox_answer uzebox_reset(const uint8_t *hex, size_t hex_length, uint32_t response, uzebox_state *state);

/* Goes on to the end of a frame, or for so many clocks, while these buttons are held. Bits 0 to 11 of a player's word are B, Y, Select,
 * Start, Up, Down, Left, Right, A, X, L and R; 1 is pressed.
 *
 * `records` gets what `uzebox play` writes: of each line at its end 461 bytes, the letter R, its row and the number 455 as 16-bit
 * numbers with the low byte first, 455 samples, and the sound value at its end (8 bits, 15,734 a second); and at the frame's end 5
 * bytes, the letter F, the frame's number and its rows. A sample is PORTC every four clocks: red in bits 0 to 2, green in 3 to 5, blue
 * in 6 and 7. A frame of 262 lines has 120,787 bytes. */
uzebox_answer uzebox_frame(const uint8_t *hex, size_t hex_length, uzebox_state *state, uint16_t one, uint16_t two, uint32_t clocks,
                           uint8_t *records, size_t room);

/* The commands. */

/* How a call of uzebox_run ended: 0 to 8 is the command's exit status, as docs/MESSAGES.md lists them. 5, a file that can't be
 * written, never comes: in memory no file is refused. From 256 on the caller's bytes stay. */
enum {
    UZEBOX_DONE = 0,        /* check, certify, find, why: accepted */
    UZEBOX_USAGE = 1,       /* the words are no command */
    UZEBOX_UNREAD = 2,      /* a file that the command reads isn't among those handed in */
    UZEBOX_BAD_INPUT = 3,   /* a file is too long, or not in its grammar */
    UZEBOX_REFUSED = 4,
    UZEBOX_RUN_STOPPED = 6,
    UZEBOX_NOT_ENTERED = 7,
    UZEBOX_OUT_OF_MEMORY = 8, /* the command lacked memory: what it had printed and written until then is told */
    UZEBOX_RUN_SHORT = 256, /* the command ran, and its answer needs more room: length says how much. Nothing of it is kept: call again */
    UZEBOX_MALFORMED = 257, /* the words or the files aren't in their form, or a word isn't UTF-8; nothing was run */
    UZEBOX_RUN_NO_MEMORY = 258 /* memory was lacking for the files that were handed in, or for the answer */
};

typedef struct {
    uint32_t status;
    uint32_t unused;        /* 0 */
    uint64_t length;        /* bytes of the answer that were written, or are needed */
} uzebox_ran;

/* Runs a command of `uzebox` over files in memory, with no other file, no output and no input.
 *
 * Texts go in and come out one after another, each behind its length, which has eight bytes with the low one first:
 *   words    the command's words, without the program's name
 *   files    a name and the bytes of each file, in turn; of two files with one name the first counts
 *   answer   the printed text, then a name and the new bytes of each file that the command made or changed, each once
 * A command writes over a file that was handed in, and over one that it reads by an include: the answer then has the new bytes, and
 * what the caller handed in stays. A file that is written with the bytes that it had is none that changed. */
uzebox_ran uzebox_run(const uint8_t *words, size_t words_length, const uint8_t *files, size_t files_length, uint8_t *answer,
                      size_t room);

#ifdef __cplusplus
}
#endif

#endif
