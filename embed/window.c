/* A window on a Uzebox: plays a HEX file by keyboard and game pads, over libuzebox_c.a and SDL2. docs/PLAY.md has the keys.
 *
 *     cc -O2 -o window window.c libuzebox_c.a -lSDL2
 */
#include "uzebox.h"

#include <SDL2/SDL.h>
#include <stdbool.h>
#include <stdio.h>
#include <stdlib.h>
#include <string.h>
#include <sys/wait.h>
#include <unistd.h>

#define CLOCKS 28636360.0 /* a second */
#define CALL 1000000      /* clocks of a call in which no frame ends */
#define WIDTH 455         /* samples of a line; of these a television shows 377, and 242 lines of a frame (SMPTE 170M) */
#define LEFT 67
#define SEEN 377
#define TALL 242
#define BLANK 14          /* lines from the end of the broad pulses to the first that is shown */
#define ROWS 1024         /* of a frame; later ones aren't shown */
#define PAIRS 65536       /* of a pad file */

/* A saved state goes with a HEX text, and has the pads since reset: what is played on from it is a record from reset too. */
typedef struct {
    uint64_t mark, hex_sum, pairs;
    uzebox_state state;
    uint16_t pads[PAIRS][2];
} saved;

#define MARK 0x3145544154535A55 /* UZSTATE1 */
static const char *usage =
    "usage: window HEX [CERT] [-r PADS] [-o FRAMES] [-n FRAMES] [-5]\n"
    "  CERT        is checked first; the title says certified, or why not\n"
    "  -r PADS     writes at the end what each latch of the pads found: a pad file for play and trace\n"
    "  -o FRAMES   writes the picture as `uzebox play` does, up to the first reset or loaded state\n"
    "  -n NUMBER   ends after so many calls for a frame, and doesn't wait between them\n"
    "  -5          an interrupt is entered in five clocks, and not in four\n";

static const char *hex_name, *pads_name, *frames_name;
static uint8_t *hex, *records, rows[ROWS][WIDTH];
static size_t hex_length, room = 200000;
static uint32_t response = 4, palette[256], keys[2], taps[2]; /* buttons that are held, and pressed since the last frame */
static saved now;
static long frames, frames_wanted;
static bool paused, one_frame, over, stopped;
static FILE *frames_file;
static char verdict[200], note[200]; /* parts of the title */
static SDL_AudioDeviceID sound;
static SDL_GameController *controllers[2];

/* Bits of a pad's word: B, Y, Select, Start, Up, Down, Left, Right, A, X, L, R. */
static const SDL_Scancode key_of[2][12] = {
    {SDL_SCANCODE_Z, SDL_SCANCODE_A, SDL_SCANCODE_SPACE, SDL_SCANCODE_RETURN, SDL_SCANCODE_UP, SDL_SCANCODE_DOWN, SDL_SCANCODE_LEFT,
     SDL_SCANCODE_RIGHT, SDL_SCANCODE_X, SDL_SCANCODE_S, SDL_SCANCODE_Q, SDL_SCANCODE_W},
    {SDL_SCANCODE_G, SDL_SCANCODE_T, SDL_SCANCODE_9, SDL_SCANCODE_0, SDL_SCANCODE_I, SDL_SCANCODE_K, SDL_SCANCODE_J, SDL_SCANCODE_L,
     SDL_SCANCODE_H, SDL_SCANCODE_Y, SDL_SCANCODE_5, SDL_SCANCODE_6},
};
/* the same buttons of a game pad: SDL names the lower one A and the right one B */
static const SDL_GameControllerButton button_of[12] = {
    SDL_CONTROLLER_BUTTON_A,         SDL_CONTROLLER_BUTTON_X,          SDL_CONTROLLER_BUTTON_BACK,         SDL_CONTROLLER_BUTTON_START,
    SDL_CONTROLLER_BUTTON_DPAD_UP,   SDL_CONTROLLER_BUTTON_DPAD_DOWN,  SDL_CONTROLLER_BUTTON_DPAD_LEFT,    SDL_CONTROLLER_BUTTON_DPAD_RIGHT,
    SDL_CONTROLLER_BUTTON_B,         SDL_CONTROLLER_BUTTON_Y,          SDL_CONTROLLER_BUTTON_LEFTSHOULDER, SDL_CONTROLLER_BUTTON_RIGHTSHOULDER,
};

static void stop(const char *what, const char *why) {
    fprintf(stderr, "window: %s: %s\n", what, why);
    exit(1);
}

static uint8_t *bytes_of(const char *name, size_t *length) {
    FILE *file = fopen(name, "rb");
    uint8_t *bytes = malloc(1 << 24);
    if (!file || !bytes) stop(name, "can't be read");
    *length = fread(bytes, 1, 1 << 24, file);
    fclose(file);
    return bytes;
}

static uint64_t sum_of(const uint8_t *bytes, size_t length) { /* FNV-1a */
    uint64_t sum = 0xcbf29ce484222325;
    while (length--) sum = (sum ^ *bytes++) * 0x100000001b3;
    return sum;
}

/* what the title says of a certificate: what `uzebox check` does, by the program that the variable UZEBOX names, else the one on the path */
static void check(const char *cert) {
    const char *program = getenv("UZEBOX") ? getenv("UZEBOX") : "uzebox";
    char line[150] = "";
    int ends[2], status = -1;
    if (pipe(ends)) stop(program, "can't be run");
    pid_t child = fork();
    if (!child) {
        dup2(ends[1], 1), close(ends[0]), close(ends[1]);
        execlp(program, program, "check", hex_name, cert, (char *)NULL);
        _exit(127);
    }
    close(ends[1]);
    FILE *said = fdopen(ends[0], "r");
    if (said && fgets(line, sizeof line, said)) line[strcspn(line, "\n")] = 0;
    while (said && fgetc(said) != EOF) continue;
    if (child < 0 || waitpid(child, &status, 0) < 0 || !line[0]) snprintf(line, sizeof line, "not checked: uzebox isn't found");
    snprintf(verdict, sizeof verdict, ", %s", status == 0 ? "certified" : line);
    printf("%s%s\n", hex_name, verdict), fflush(stdout);
    if (said) fclose(said);
}

static void end_frames(void) {
    if (frames_file && fclose(frames_file)) fprintf(stderr, "window: %s: can't be written\n", frames_name);
    frames_file = NULL;
}

static void reset(void) {
    memset(&now, 0, sizeof now);
    now.mark = MARK, now.hex_sum = sum_of(hex, hex_length);
    uzebox_answer answer = uzebox_reset(hex, hex_length, response, &now.state);
    if (answer.status != UZEBOX_FRAME) stop(hex_name, answer.status == UZEBOX_NO_HEX ? "isn't an Intel HEX file" : "no memory");
    stopped = false;
}

/* a state is a file beside the HEX file */
static void keep_state(int slot, bool load) {
    static saved other;
    char name[4096];
    snprintf(name, sizeof name, "%s.state%d", hex_name, slot);
    FILE *file = fopen(name, load ? "rb" : "wb");
    size_t head = offsetof(saved, pads);
    bool good = file != NULL;
    if (good && load) {
        good = fread(&other, head, 1, file) == 1 && other.mark == MARK && other.hex_sum == now.hex_sum && other.pairs <= PAIRS;
        good = good && fread(other.pads, 4, other.pairs, file) == other.pairs;
        if (good) now = other, stopped = false, end_frames();
    } else if (good)
        good = fwrite(&now, head + 4 * now.pairs, 1, file) == 1;
    if (file && fclose(file)) good = false;
    snprintf(note, sizeof note, good ? load ? ", state %d loaded" : ", state %d saved" : ", no state %d", slot);
}

static void write_pads(void) {
    char name[4096];
    snprintf(name, sizeof name, pads_name ? "%s" : "%s.pads", pads_name ? pads_name : hex_name);
    FILE *file = fopen(name, "w");
    for (size_t k = 0; file && k < now.pairs; k++) fprintf(file, "%04X %04X\n", now.pads[k][0], now.pads[k][1]);
    bool good = file && !fclose(file);
    printf("%s: %s%zu latches, %llu clocks\n", name, good ? "" : "can't be written, ", (size_t)now.pairs, (unsigned long long)now.state.clock);
    snprintf(note, sizeof note, good ? ", record written" : ", record not written");
}

static uint16_t held_by(int player) {
    uint16_t word = keys[player] | taps[player];
    SDL_GameController *it = controllers[player];
    taps[player] = 0;
    if (!it) return word;
    for (int k = 0; k < 12; k++) word |= SDL_GameControllerGetButton(it, button_of[k]) << k;
    int x = SDL_GameControllerGetAxis(it, SDL_CONTROLLER_AXIS_LEFTX), y = SDL_GameControllerGetAxis(it, SDL_CONTROLLER_AXIS_LEFTY);
    return word | (y < -16000) << 4 | (y > 16000) << 5 | (x < -16000) << 6 | (x > 16000) << 7;
}

/* Shows the lines of a frame that is over. A frame with more than 262 has half lines, of which a third follow the broad pulses. */
static void show(SDL_Texture *picture, unsigned count) {
    unsigned first = BLANK + (count > 262 ? (count - 262) / 3 : 0);
    static uint32_t points[TALL][SEEN];
    for (unsigned y = 0; y < TALL; y++)
        for (unsigned x = 0; x < SEEN; x++) points[y][x] = palette[first + y < count && first + y < ROWS ? rows[first + y][LEFT + x] : 0];
    SDL_UpdateTexture(picture, NULL, points, sizeof points[0]);
}

/* Reads what a call wrote: the samples of each line and its sound, and the frame's end. */
static void take(SDL_Texture *picture, size_t length) {
    static uint8_t wave[ROWS], start[512];
    size_t sounds = 0;
    for (const uint8_t *at = records, *end = at + length; at < end; at += at[0] == 'R' ? 6 + WIDTH : 5) {
        unsigned first = at[1] | at[2] << 8, second = at[3] | at[4] << 8;
        if (at[0] == 'R' && first < ROWS) memcpy(rows[first], at + 5, WIDTH);
        if (at[0] == 'R' && sounds < ROWS) wave[sounds++] = at[5 + WIDTH];
        if (at[0] == 'F') show(picture, second);
    }
    if (SDL_GetQueuedAudioSize(sound) > 15734 / 5) SDL_ClearQueuedAudio(sound); /* more than a fifth of a second late */
    memset(start, wave[0], sizeof start);
    if (!SDL_GetQueuedAudioSize(sound)) SDL_QueueAudio(sound, start, sizeof start); /* so long a frame may come late unheard */
    if (sound) SDL_QueueAudio(sound, wave, sounds);
    if (frames_file) fwrite(records, 1, length, frames_file);
}

/* Up to the end of a frame: how many seconds of the console passed. */
static double play(SDL_Texture *picture) {
    uint16_t one = held_by(0), two = held_by(1);
    uint64_t before = now.state.clock;
    uzebox_answer answer = uzebox_frame(hex, hex_length, &now.state, one, two, CALL, records, room);
    if (answer.status == UZEBOX_SHORT) {
        if (!(records = realloc(records, room = answer.length))) stop(hex_name, "no memory");
        answer = uzebox_frame(hex, hex_length, &now.state, one, two, CALL, records, room);
    }
    if (answer.status >= UZEBOX_NO_HEX) stop(hex_name, "no memory");
    for (; answer.latches && now.pairs < PAIRS; answer.latches--, now.pairs++) now.pads[now.pairs][0] = one, now.pads[now.pairs][1] = two;
    take(picture, answer.length);
    stopped = answer.status == UZEBOX_STOPPED;
    over = over || (frames_wanted && (stopped || ++frames >= frames_wanted));
    return (now.state.clock - before) / CLOCKS;
}

static void press(SDL_KeyboardEvent *event, bool down) {
    SDL_Keycode key = event->keysym.sym;
    for (int k = 0; k < 24; k++)
        if (key_of[k / 12][k % 12] == event->keysym.scancode) {
            uint32_t bit = 1u << k % 12, *word = &keys[k / 12];
            *word = down ? *word | bit : *word & ~bit;
            if (down) taps[k / 12] |= bit; /* one that is let go before the next frame counts for it */
            return;
        }
    if (!down || event->repeat) return;
    note[0] = 0;
    if (key >= SDLK_F1 && key < SDLK_F1 + 4) keep_state(key - SDLK_F1 + 1, !(event->keysym.mod & KMOD_SHIFT));
    paused = key == SDLK_n || (key == SDLK_p ? !paused : paused), one_frame = key == SDLK_n;
    if (key == SDLK_r) write_pads();
    if (key == SDLK_BACKSPACE) reset(), end_frames();
    if (key == SDLK_ESCAPE) over = true;
}

static void take_events(void) {
    SDL_Event event;
    while (SDL_PollEvent(&event)) {
        if (event.type == SDL_QUIT) over = true;
        if (event.type == SDL_KEYDOWN || event.type == SDL_KEYUP) press(&event.key, event.type == SDL_KEYDOWN);
        if (event.type == SDL_WINDOWEVENT && event.window.event == SDL_WINDOWEVENT_FOCUS_LOST) keys[0] = keys[1] = 0;
        for (int k = 0; k < 2; k++) {
            SDL_GameController *it = controllers[k];
            if (event.type == SDL_CONTROLLERDEVICEADDED && !it) {
                controllers[k] = SDL_GameControllerOpen(event.cdevice.which);
                break;
            }
            if (event.type == SDL_CONTROLLERDEVICEREMOVED && it && it == SDL_GameControllerFromInstanceID(event.cdevice.which))
                SDL_GameControllerClose(it), controllers[k] = NULL;
        }
    }
}

static double seconds(void) {
    return SDL_GetPerformanceCounter() / (double)SDL_GetPerformanceFrequency();
}

/* Frames at the console's speed; a title every half second. */
static void loop(SDL_Window *window, SDL_Renderer *renderer, SDL_Texture *picture) {
    const char *slash = strrchr(hex_name, '/'), *name = slash ? slash + 1 : hex_name;
    double due = seconds(), since = due, spent = 0, passed = 0;
    for (long played = 0; take_events(), !over;) {
        double start = seconds(), wait = 1 / 60.0;
        if (!stopped && (!paused || one_frame)) {
            passed += wait = play(picture);
            one_frame = false, played++, spent += seconds() - start;
        }
        SDL_RenderClear(renderer);
        SDL_RenderCopy(renderer, picture, NULL, NULL);
        SDL_RenderPresent(renderer);
        double end = seconds();
        if (end - since > 0.5) {
            char title[1000];
            snprintf(title, sizeof title, "%s%s, %.0f %%, %.1f ms a frame%s%s%s%s", name, verdict, passed / (end - since) * 100,
                     played ? spent / played * 1000 : 0, paused ? ", paused" : "", stopped ? ", stopped" : "",
                     now.pairs < PAIRS ? "" : ", the record is full", note);
            SDL_SetWindowTitle(window, title);
            since = end, spent = passed = played = 0;
        }
        due = due + wait < end - 0.1 ? end : due + wait;
        if (!frames_wanted && due > end) SDL_Delay((due - end) * 1000);
    }
}

int main(int count, char **words) {
    const char *cert = NULL;
    for (int k = 1; k < count; k++) {
        if (!strcmp(words[k], "-5")) response = 5;
        else if (k + 1 < count && !strcmp(words[k], "-r")) pads_name = words[++k];
        else if (k + 1 < count && !strcmp(words[k], "-o")) frames_name = words[++k];
        else if (k + 1 < count && !strcmp(words[k], "-n")) frames_wanted = atol(words[++k]);
        else if (words[k][0] != '-' && !hex_name) hex_name = words[k];
        else if (words[k][0] != '-' && !cert) cert = words[k];
        else hex_name = NULL, k = count;
    }
    if (!hex_name) return fputs(usage, stderr), 2;
    hex = bytes_of(hex_name, &hex_length), records = malloc(room);
    for (unsigned k = 0; k < 256; k++)
        palette[k] = 0xFF000000 | (k & 7) * 255 / 7 << 16 | (k >> 3 & 7) * 255 / 7 << 8 | (k >> 6) * 255 / 3;
    reset();
    if (cert) check(cert);
    if (frames_name && !(frames_file = fopen(frames_name, "wb"))) stop(frames_name, "can't be written");
    SDL_SetHint(SDL_HINT_RENDER_SCALE_QUALITY, "nearest");
    if (SDL_Init(SDL_INIT_VIDEO | SDL_INIT_AUDIO | SDL_INIT_GAMECONTROLLER) && SDL_Init(SDL_INIT_VIDEO)) stop("SDL", SDL_GetError());
    SDL_AudioSpec wave = {.freq = 15734, .format = AUDIO_U8, .channels = 1, .samples = 256};
    if ((sound = SDL_OpenAudioDevice(NULL, 0, &wave, NULL, 0))) SDL_PauseAudioDevice(sound, 0);
    SDL_Window *window = SDL_CreateWindow(hex_name, SDL_WINDOWPOS_UNDEFINED, SDL_WINDOWPOS_UNDEFINED, 960, 720, SDL_WINDOW_RESIZABLE);
    SDL_Renderer *renderer = window ? SDL_CreateRenderer(window, -1, 0) : NULL;
    SDL_Texture *picture = renderer ? SDL_CreateTexture(renderer, SDL_PIXELFORMAT_ARGB8888, SDL_TEXTUREACCESS_STATIC, SEEN, TALL) : NULL;
    if (!picture) stop("SDL", SDL_GetError());
    SDL_RenderSetLogicalSize(renderer, 4 * TALL, 3 * TALL); /* 4 by 3 in a window of any form */
    loop(window, renderer, picture);
    if (pads_name) write_pads();
    return end_frames(), SDL_Quit(), 0;
}
