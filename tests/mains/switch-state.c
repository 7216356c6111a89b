#include "main.h"
static u8 state, timer, score;
static void init(void) {}
static void game(void) {
    switch (state) {
    case 0:
        if (pad & BTN_START)
            state = 1;
        P(0, 0) = 1;
        break;
    case 1:
        timer = 60;
        state = 2;
        break;
    case 2:
        if (!--timer)
            state = 3;
        P(1, 0) = timer;
        break;
    case 3:
        score++;
        if (score == 10)
            state = 4;
        else if (pad & BTN_A)
            state = 1;
        break;
    case 4:
        memset(screen, 0, 256);
        state = 5;
        break;
    case 5:
        if (pad & BTN_B)
            state = 0;
        break;
    }
}
