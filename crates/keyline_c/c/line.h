/* Lines from standard input, drawn on standard error, over keyline.h. On a terminal each key comes at once while a line is
 * read, and the terminal is as it was found when line_read returns. On a pipe or a file the same lines come of the same keys.
 *
 *     struct line_settings settings = {.mode = KEYLINE_EMACS};
 *     struct line_reader *reader = line_open(&settings);
 *     struct line line;
 *     while (reader != NULL && (line = line_read(reader, "> ")).status == LINE_READ) puts(line.text);
 *     line_close(reader);
 *
 * Compile line.c with the program, and link both with libkeyline_c.a and the kit's c/liblibc_c.a. One thread reads lines. */
#ifndef KEYLINE_LINE_H
#define KEYLINE_LINE_H
#include "keyline.h"

/* How lines are read. If all is zero: Emacs' keys, no words for Tab, and an empty history. */
struct line_settings {
    uint8_t mode;                /* a keyline_mode */
    bool brackets;               /* whether Enter adds a row while a bracket is open */
    struct keyline_text words;   /* those that Tab completes, one a row; they are not copied */
    struct keyline_text history; /* a history's text, as line_history gave it; it is copied */
};

enum line_status {
    LINE_READ,        /* the text is the line */
    LINE_INTERRUPTED, /* Ctrl-C */
    LINE_END,         /* the input ended, or Ctrl-D on an empty line */
    LINE_FAILED       /* the text says why; after "out of memory" the next call has the same keys */
};

/* A zero byte ends the text, and is not counted. The text stays until the next call. */
struct line {
    enum line_status status;
    const char *text;
    size_t length;
};

struct line_reader;

/* A new reader, or NULL if memory ran out. */
struct line_reader *line_open(const struct line_settings *settings);

/* Frees a reader; NULL is none. */
void line_close(struct line_reader *reader);

/* Reads a line after a prompt, which is UTF-8. The line has the terminal's width as it begins, or 80 columns without one.
 * What stands in the buffer of standard output is written first.
 *
 * SIGHUP, SIGINT, SIGQUIT, SIGTERM and SIGTSTP act as they would in the program, but with the terminal as it was found. If
 * the program goes on after that, the line is drawn again. */
struct line line_read(struct line_reader *reader, const char *prompt);

/* Replaces the words that Tab completes. They are not copied. */
void line_set_words(struct line_reader *reader, struct keyline_text words);

/* The history's text, which a file can keep: the last 100 lines, equal neighbours once. It stays until the next call. */
struct keyline_text line_history(const struct line_reader *reader);
#endif
