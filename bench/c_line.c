/* The cost of a key with keyline.h: a call after each key at the end of lines of so many characters. */
#include "../crates/keyline_c/c/keyline.h"
#include <stdio.h>
#include <string.h>
#include <time.h>

static uint8_t keys[1 << 16], display[1 << 20], line[1 << 16], history[1 << 16], kills[1 << 16];
static size_t ends[KEYLINE_SLOTS];

static double now(void)
{
    struct timespec time;
    clock_gettime(CLOCK_PROCESS_CPUTIME_ID, &time);
    return (double)time.tv_sec * 1e6 + (double)time.tv_nsec / 1e3;
}

int main(void)
{
    static const size_t lengths[] = {10, 100, 1000, 4000};
    memset(keys, 'a', sizeof keys);
    for (size_t it = 0; it < sizeof lengths / sizeof *lengths; it++) {
        struct keyline_options options = {.columns = 80};
        struct keyline_given given = {.keys = {keys, lengths[it]}, .prompt = {(const uint8_t *)"> ", 2}};
        struct keyline_room room = {
            {display, sizeof display}, {line, sizeof line}, {history, sizeof history}, {kills, sizeof kills}, ends};
        struct keyline_step step;
        const int times = 400;
        double begun = now();
        for (int n = 0; n < times; n++) {
            keyline_line(&options, &given, &room, &step);
            options.sent = step.sent;
        }
        printf("%zu characters: %.1f microseconds a key\n", lengths[it], (now() - begun) / times);
    }
    return 0;
}
