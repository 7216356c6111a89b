/* Plays 60 frames, and saves the state after the 30th: cc -o example example.c libuzebox_c.a && ./example kernel.hex */
#include "uzebox.h"
#include <stdio.h>

int main(int count, char **words) {
    static uint8_t hex[1 << 20], records[1 << 18];
    static uzebox_state state, saved;
    FILE *file = count == 2 ? fopen(words[1], "rb") : NULL;
    if (!file)
        return 2;
    size_t length = fread(hex, 1, sizeof hex, file);
    fclose(file);
    uzebox_answer answer = uzebox_reset(hex, length, 4, &state);
    for (int frame = 1; frame <= 60 && answer.status == UZEBOX_FRAME; frame++) {
        uint16_t start = frame == 30 ? 1 << 3 : 0;
        answer = uzebox_frame(hex, length, &state, start, 0, 1000000, records, sizeof records);
        printf("%d: status %u, %llu rows, %u latches\n", frame, answer.status, (unsigned long long)answer.length / 461, answer.latches);
        if (frame == 30)
            saved = state;
    }
    printf("the state after frame 30 was at clock %llu\n", (unsigned long long)saved.clock);
    return (int)answer.status;
}
