/* Lines for programs in C and C++: each call takes the keys typed since a line began. No state is kept between calls.
 *
 * A program first calls keyline_line without keys, and sends the display bytes. While the status is KEYLINE_MORE it reads
 * some bytes, appends them to the keys and calls again, with `sent` from the last step. All other arguments stay the same
 * until the line ends. The bytes sent for fewer keys are a prefix of those sent for more. Meanwhile `line` and `cursor` tell
 * the line as it stands.
 *
 * A key of `asks` ends the call by KEYLINE_ASKED. The line goes on: the program leaves that key out of the line's keys, or
 * puts others in its place, and calls again.
 *
 * A call may begin the drawing anew: `sent` is 0 again, and `columns` may differ. From the last "\r\x1b[J" on, the display
 * bytes draw the line whole.
 *
 * When the line has ended, use its `kills`, `ends` and `place` for the next line. Use its `history` too, unless its
 * length is 0. Begin the next line's keys with the bytes after the first `keys`. After KEYLINE_ARGUMENT, KEYLINE_ROOM and
 * KEYLINE_MEMORY the line has not ended.
 *
 * Link libkeyline_c.a and the C part of the Rattle kit that it is built with, c/liblibc_c.a. A call allocates with malloc, and
 * frees all of it before it returns. Its results are in the caller's memory. */
#ifndef KEYLINE_H
#define KEYLINE_H
#include <stdbool.h>
#include <stddef.h>
#include <stdint.h>

#ifdef __cplusplus
extern "C" {
#endif

/* The version of this header: of 1.2.3 it is 10203. */
#define KEYLINE_VERSION 200

/* The version of the library that is linked. */
uint32_t keyline_version(void);

enum keyline_status {
    KEYLINE_LINE,               /* the line is complete */
    KEYLINE_MORE,               /* more keys are wanted */
    KEYLINE_END,                /* the keys ended, or Ctrl-D was typed on an empty line */
    KEYLINE_INTERRUPTED,        /* Ctrl-C */
    KEYLINE_NOT_UTF8,           /* the keys aren't UTF-8 where a character is expected */
    KEYLINE_PASTE_OUT_OF_PLACE, /* text was pasted where no command expects it */
    KEYLINE_ARGUMENT,           /* invalid argument; no effect */
    KEYLINE_ROOM,               /* a buffer is too small: none was written, and the step has all lengths. Retry the call with larger ones */
    KEYLINE_MEMORY,             /* out of memory, though each argument is valid; the call can be retried */
    KEYLINE_ASKED               /* a key of `asks` came: it ends the first `keys` key bytes, and nothing was made of it */
};

enum keyline_mode { KEYLINE_EMACS, KEYLINE_VI };

/* The slots of a kill ring. */
#define KEYLINE_SLOTS 60

struct keyline_options {
    uint16_t columns; /* columns of a row: 2 to 1,000 */
    uint8_t mode;     /* a keyline_mode */
    bool brackets;    /* whether Enter adds a row while a bracket is open */
    bool ended;       /* whether no more keys follow */
    size_t sent;      /* display bytes of this line sent so far; 0 at first */
    size_t place;     /* the kill ring's current slot; 0 at first */
    size_t entries;   /* the most entries of the history, equal neighbours too; 0 stands for 100 without these */
    bool modal;       /* whether Ctrl-R searches, Up goes through what begins with the line, and so on */
};

/* Bytes to read. If the length is 0, the pointer may be null. */
struct keyline_text {
    const uint8_t *bytes;
    size_t length;
};

/* The input of a call. All texts are UTF-8; `keys` and `asks` may be any bytes. */
struct keyline_given {
    struct keyline_text keys;    /* typed since the line began */
    struct keyline_text prompt;
    struct keyline_text words;   /* the words that Tab completes, one per row */
    struct keyline_text asks;    /* the program's own keys, each as it is sent, with a zero after it: "\t\0\033?" */
    struct keyline_text history; /* the history's text */
    struct keyline_text kills;   /* the kill ring's texts, one after the other */
    const size_t *ends;          /* the offset at which each of them ends */
    size_t slots;                /* their number: at most KEYLINE_SLOTS */
};

/* A buffer to write to, and its size. If the pointer is null, the text isn't wanted, only its length. */
struct keyline_space {
    uint8_t *bytes;
    size_t size;
};

/* The output buffers of a call. They must not overlap each other or the input. */
struct keyline_room {
    struct keyline_space display; /* the new display bytes */
    struct keyline_space line;    /* without a newline and without a final zero */
    struct keyline_space history; /* the history's new text */
    struct keyline_space kills;
    size_t *ends;                 /* an array of KEYLINE_SLOTS, or null */
};

/* Which texts are wanted. */
struct keyline_wants {
    bool display, line, history, kills, ends;
};

struct keyline_step {
    uint8_t status;  /* a keyline_status */
    size_t display;  /* length of the new display bytes, to be sent now */
    size_t sent;     /* display bytes of this line so far: `sent` of the next call */
    size_t line;     /* length of the line; at KEYLINE_MORE and KEYLINE_ASKED, of the line as it stands */
    size_t keys;     /* number of key bytes that belong to the line; at KEYLINE_ASKED, up to the key and with it */
    size_t history;  /* length of the history's text; 0 if it hasn't changed */
    size_t kills;    /* length of the kill ring's texts */
    size_t slots;    /* their number */
    size_t place;    /* `place` of the next line */
    size_t cursor;   /* at KEYLINE_MORE and KEYLINE_ASKED, number of bytes of the line before the cursor */
};

/* Called by keyline_line once no pointer is null. */
void keyline_line_checked(const struct keyline_options *options, const uint8_t *keys, size_t keys_length,
                          const uint8_t *prompt, size_t prompt_length, const uint8_t *words, size_t words_length,
                          const uint8_t *asks, size_t asks_length, const uint8_t *history, size_t history_length,
                          const uint8_t *kills, size_t kills_length, const size_t *ends, size_t slots,
                          const struct keyline_wants *wants, uint8_t *display_room, size_t display_size,
                          uint8_t *line_room, size_t line_size, uint8_t *history_room, size_t history_size,
                          uint8_t *kills_room, size_t kills_size, size_t *ends_room, size_t ends_size,
                          struct keyline_step *step);

/* Whether the text is valid. The pointer of an empty text may be null, and is then set to a byte. */
static inline bool keyline_is_text(struct keyline_text *text) {
    static const uint8_t none = 0;
    if (text->length == 0) text->bytes = &none;
    return text->bytes != NULL && text->length <= PTRDIFF_MAX;
}

/* Whether the buffer is valid, and whether its text is wanted. */
static inline bool keyline_is_space(struct keyline_space *space, bool *wants) {
    static uint8_t none = 0;
    *wants = space->bytes != NULL;
    if (space->bytes == NULL) space->bytes = &none, space->size = 0;
    return space->size <= PTRDIFF_MAX;
}

/* What a status means, in words. */
static inline const char *keyline_status_text(uint8_t status) {
    switch (status) {
    case KEYLINE_LINE: return "the line is complete";
    case KEYLINE_MORE: return "more keys are wanted";
    case KEYLINE_END: return "end of input";
    case KEYLINE_INTERRUPTED: return "interrupted";
    case KEYLINE_NOT_UTF8: return "the keys are not UTF-8";
    case KEYLINE_PASTE_OUT_OF_PLACE: return "pasted text out of place";
    case KEYLINE_ARGUMENT: return "invalid argument";
    case KEYLINE_ROOM: return "a buffer is too small";
    case KEYLINE_MEMORY: return "out of memory";
    case KEYLINE_ASKED: return "a key of the program's own";
    default: return "no status";
    }
}

/* Reads the line of these keys, as far as they go. */
static inline void keyline_line(const struct keyline_options *options, const struct keyline_given *given,
                                const struct keyline_room *room, struct keyline_step *step) {
    static const struct keyline_step invalid = {KEYLINE_ARGUMENT, 0, 0, 0, 0, 0, 0, 0, 0, 0};
    static const size_t none = 0;
    static size_t no_ends = 0;
    struct keyline_wants wants;
    struct keyline_given g;
    struct keyline_room r;
    if (step == NULL) return;
    *step = invalid;
    if (options == NULL || given == NULL || room == NULL) return;
    g = *given;
    r = *room;
    if (g.slots == 0) g.ends = &none;
    wants.ends = r.ends != NULL;
    if (r.ends == NULL) r.ends = &no_ends;
    if (!keyline_is_text(&g.keys) || !keyline_is_text(&g.prompt) || !keyline_is_text(&g.words) ||
        !keyline_is_text(&g.asks) || !keyline_is_text(&g.history) || !keyline_is_text(&g.kills) || g.ends == NULL ||
        g.slots > KEYLINE_SLOTS ||
        !keyline_is_space(&r.display, &wants.display) || !keyline_is_space(&r.line, &wants.line) ||
        !keyline_is_space(&r.history, &wants.history) || !keyline_is_space(&r.kills, &wants.kills))
        return;
    keyline_line_checked(options, g.keys.bytes, g.keys.length, g.prompt.bytes, g.prompt.length, g.words.bytes,
                         g.words.length, g.asks.bytes, g.asks.length, g.history.bytes, g.history.length,
                         g.kills.bytes, g.kills.length, g.ends, g.slots, &wants, r.display.bytes, r.display.size, r.line.bytes, r.line.size, r.history.bytes,
                         r.history.size, r.kills.bytes, r.kills.size, r.ends, wants.ends ? KEYLINE_SLOTS : 0, step);
}

#ifdef __cplusplus
}
#endif
#endif
