#include "main.h"
static u8 q[32], rd, wr;
static void put(u8 v) {
    u8 n = (wr + 1) & 31;
    if (n != rd) {
        q[wr] = v;
        wr = n;
    }
}
static u8 get(void) {
    if (rd == wr)
        return 0;
    u8 v = q[rd];
    rd = (rd + 1) & 31;
    return v;
}
static void init(void) {}
static void game(void) {
    put(pad);
    if (frames & 1)
        P(get() & 15, 4) = get();
}
