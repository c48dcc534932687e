/* Lines over keyline.h: each call gets all keys since the line began, and is made again with larger buffers if these are
 * too small. */
#define _POSIX_C_SOURCE 200809L
#include "line.h"
#include <errno.h>
#include <signal.h>
#include <stdio.h>
#include <stdlib.h>
#include <string.h>
#include <sys/ioctl.h>
#include <sys/select.h>
#include <termios.h>
#include <unistd.h>

enum {
    KEYS = STDIN_FILENO,
    DISPLAY = STDERR_FILENO,
    MIN_COLUMNS = 2,
    MAX_COLUMNS = 1000,
    DEFAULT_COLUMNS = 80,
    READ_SIZE = 4096 /* the least free space for a read */
};

/* Bracketed paste: the terminal sends marks around pasted text. */
static const char paste_on[] = "\x1b[?2004h", paste_off[] = "\x1b[?2004l";

/* A new row, with nothing below it. */
static const char new_row[] = "\n\x1b[J";

/* The signals that act only once the terminal is put back. */
static const int signals[] = {SIGHUP, SIGINT, SIGQUIT, SIGTERM, SIGTSTP, SIGCONT};
enum { SIGNALS = sizeof signals / sizeof *signals };
static volatile sig_atomic_t has_come[SIGNALS];

/* The terminal of the keys, and what is put back when a line ends. */
struct terminal {
    bool is_taken;
    struct termios settings;
    struct sigaction actions[SIGNALS];
    sigset_t mask;
};

struct line_reader {
    struct keyline_options options;
    struct keyline_given given;
    struct keyline_step step;
    struct terminal terminal;
    struct keyline_space keys, display, line, history, kills, new_history, new_kills;
    size_t first, filled; /* of the keys: where the line's begin, and where all end */
    size_t ends[KEYLINE_SLOTS], new_ends[KEYLINE_SLOTS];
    char failure[128];
};

/* Makes a buffer at least so large. It doubles, so that many small steps cost little. */
static bool grow(struct keyline_space *space, size_t size)
{
    uint8_t *bytes;
    if (size <= space->size) return true;
    if (size / 2 < space->size && space->size <= PTRDIFF_MAX / 2) size = 2 * space->size;
    bytes = realloc(space->bytes, size);
    if (bytes == NULL) return false;
    *space = (struct keyline_space){bytes, size};
    return true;
}

static void swap(struct keyline_space *one, struct keyline_space *other)
{
    struct keyline_space it = *one;
    *one = *other;
    *other = it;
}

static void await_display(void)
{
    fd_set files;
    FD_ZERO(&files);
    FD_SET(DISPLAY, &files);
    select(DISPLAY + 1, NULL, &files, NULL, NULL);
}

/* Sends bytes to the display. */
static bool show(const void *bytes, size_t length)
{
    for (const char *at = bytes; length > 0;) {
        ssize_t count = write(DISPLAY, at, length);
        if (count >= 0) {
            at += count;
            length -= (size_t)count;
        } else if (errno == EAGAIN) {
            await_display();
        } else if (errno != EINTR) {
            return false;
        }
    }
    return true;
}

static uint16_t measure_columns(void)
{
    struct winsize size;
    if (ioctl(DISPLAY, TIOCGWINSZ, &size) != 0 && ioctl(KEYS, TIOCGWINSZ, &size) != 0) return DEFAULT_COLUMNS;
    if (size.ws_col < MIN_COLUMNS) return DEFAULT_COLUMNS;
    return size.ws_col < MAX_COLUMNS ? size.ws_col : MAX_COLUMNS;
}

static void note_signal(int number)
{
    for (int it = 0; it < SIGNALS; it++)
        if (signals[it] == number) has_come[it] = true;
}

/* Blocks the signals, except while keys are awaited. One that the program ignores stays ignored. */
static void take_signals(struct terminal *terminal)
{
    struct sigaction action = {.sa_handler = note_signal};
    sigset_t blocked;
    sigemptyset(&action.sa_mask);
    sigemptyset(&blocked);
    sigaddset(&blocked, SIGPIPE);
    for (int it = 0; it < SIGNALS; it++) sigaddset(&blocked, signals[it]);
    sigprocmask(SIG_BLOCK, &blocked, &terminal->mask);
    for (int it = 0; it < SIGNALS; it++) {
        sigaction(signals[it], NULL, &terminal->actions[it]);
        if (terminal->actions[it].sa_handler != SIG_IGN) sigaction(signals[it], &action, NULL);
    }
}

/* A job in the background stops here. */
static void await_foreground(void)
{
    pid_t owner = tcgetpgrp(KEYS);
    if (owner > 0 && owner != getpgrp()) kill(0, SIGTTOU);
}

/* Ctrl-C and Enter come as keys. The keys that stop and quit stay with the terminal. */
static void take(struct terminal *terminal)
{
    struct termios settings;
    await_foreground();
    if (tcgetattr(KEYS, &terminal->settings) != 0) return;
    take_signals(terminal);
    settings = terminal->settings;
    settings.c_iflag &= ~(tcflag_t)(ICRNL | INLCR | IGNCR | ISTRIP | IXON);
    settings.c_lflag &= ~(tcflag_t)(ICANON | ECHO | IEXTEN);
    settings.c_cc[VINTR] = _POSIX_VDISABLE;
    settings.c_cc[VMIN] = 1;
    settings.c_cc[VTIME] = 0;
    tcsetattr(KEYS, TCSANOW, &settings);
    if (isatty(DISPLAY)) show(paste_on, sizeof paste_on - 1);
    terminal->is_taken = true;
}

static void put_back(struct terminal *terminal)
{
    if (!terminal->is_taken) return;
    terminal->is_taken = false;
    if (isatty(DISPLAY)) show(paste_off, sizeof paste_off - 1);
    tcsetattr(KEYS, TCSANOW, &terminal->settings);
    for (int it = 0; it < SIGNALS; it++) sigaction(signals[it], &terminal->actions[it], NULL);
    sigprocmask(SIG_SETMASK, &terminal->mask, NULL);
}

/* Lets the signals that have come act, below the line. Returns if the program goes on: then the line is drawn again. */
static bool act_on_signals(struct line_reader *reader)
{
    bool acted = false;
    for (int it = 0; it < SIGNALS; it++) {
        if (!has_come[it]) continue;
        has_come[it] = false;
        if (!acted) show(new_row, sizeof new_row - 1);
        acted = true;
        put_back(&reader->terminal);
        raise(signals[it]);
    }
    if (acted) take(&reader->terminal);
    if (acted) reader->options.sent = 0;
    return acted;
}

/* Waits for keys, and reads them behind those that are there; or returns without any if the line is drawn again. */
static bool read_keys(struct line_reader *reader)
{
    struct terminal *terminal = &reader->terminal;
    for (;;) {
        fd_set files;
        ssize_t count;
        FD_ZERO(&files);
        FD_SET(KEYS, &files);
        if (pselect(KEYS + 1, &files, NULL, NULL, NULL, terminal->is_taken ? &terminal->mask : NULL) < 0 &&
            act_on_signals(reader))
            return true;
        count = read(KEYS, reader->keys.bytes + reader->filled, reader->keys.size - reader->filled);
        if (count < 0 && (errno == EINTR || errno == EAGAIN)) continue;
        if (count > 0) reader->filled += (size_t)count;
        reader->options.ended = count == 0;
        return count >= 0;
    }
}

/* Makes space for a read. Keys of lines before go if they are half of the buffer or more, so that each byte moves seldom. */
static bool make_space(struct line_reader *reader)
{
    if (reader->keys.size - reader->filled >= READ_SIZE) return true;
    if (reader->first >= reader->keys.size / 2) {
        reader->filled -= reader->first;
        memmove(reader->keys.bytes, reader->keys.bytes + reader->first, reader->filled);
        reader->first = 0;
    }
    return grow(&reader->keys, reader->filled + READ_SIZE);
}

/* Makes each buffer as large as the step says. */
static bool make_room(struct line_reader *reader)
{
    const struct keyline_step *step = &reader->step;
    return grow(&reader->display, step->display) && grow(&reader->line, step->line + 1) &&
           grow(&reader->new_history, step->history) && grow(&reader->new_kills, step->kills);
}

/* Calls with buffers that are large enough. */
static void call(struct line_reader *reader)
{
    reader->given.keys = (struct keyline_text){reader->keys.bytes + reader->first, reader->filled - reader->first};
    do {
        struct keyline_space line = {reader->line.bytes, reader->line.size - 1};
        struct keyline_room room = {reader->display, line, reader->new_history, reader->new_kills, reader->new_ends};
        keyline_line(&reader->options, &reader->given, &room, &reader->step);
    } while (reader->step.status == KEYLINE_ROOM && make_room(reader));
}

/* Keeps what the next line begins with. */
static void keep(struct line_reader *reader)
{
    const struct keyline_step *step = &reader->step;
    reader->first += step->keys;
    if (step->history > 0) {
        swap(&reader->history, &reader->new_history);
        reader->given.history = (struct keyline_text){reader->history.bytes, step->history};
    }
    swap(&reader->kills, &reader->new_kills);
    reader->given.kills = (struct keyline_text){reader->kills.bytes, step->kills};
    memcpy(reader->ends, reader->new_ends, step->slots * sizeof *reader->ends);
    reader->given.slots = step->slots;
    reader->options.place = step->place;
}

static struct line ended(enum line_status status, const char *text)
{
    return (struct line){status, text, strlen(text)};
}

static struct line failed(struct line_reader *reader, const char *what)
{
    snprintf(reader->failure, sizeof reader->failure, "%s: %s", what, strerror(errno));
    return ended(LINE_FAILED, reader->failure);
}

/* The line that the step gives. */
static struct line finish(struct line_reader *reader)
{
    size_t length = reader->step.line;
    switch (reader->step.status) {
    case KEYLINE_LINE:
        reader->line.bytes[length] = 0;
        return (struct line){LINE_READ, (const char *)reader->line.bytes, length};
    case KEYLINE_INTERRUPTED: return ended(LINE_INTERRUPTED, "");
    case KEYLINE_END: return ended(LINE_END, "");
    case KEYLINE_NOT_UTF8: return ended(LINE_FAILED, "input is not UTF-8");
    case KEYLINE_PASTE_OUT_OF_PLACE: return ended(LINE_FAILED, "paste out of place");
    case KEYLINE_ARGUMENT: return ended(LINE_FAILED, "invalid argument");
    default: return ended(LINE_FAILED, "out of memory");
    }
}

/* Draws and reads until the line ends. */
static struct line play(struct line_reader *reader)
{
    for (reader->options.sent = 0;;) {
        call(reader);
        if (reader->step.status >= KEYLINE_ARGUMENT) return finish(reader);
        if (!show(reader->display.bytes, reader->step.display)) return failed(reader, "display failed");
        if (reader->step.status != KEYLINE_MORE) break;
        reader->options.sent = reader->step.sent;
        if (!make_space(reader)) return ended(LINE_FAILED, "out of memory");
        if (!read_keys(reader)) return failed(reader, "input failed");
    }
    keep(reader);
    return finish(reader);
}

struct line line_read(struct line_reader *reader, const char *prompt)
{
    struct line line;
    fflush(stdout);
    reader->given.prompt = (struct keyline_text){(const uint8_t *)prompt, strlen(prompt)};
    reader->options.columns = measure_columns();
    take(&reader->terminal);
    line = play(reader);
    put_back(&reader->terminal);
    if (line.status == LINE_FAILED && reader->step.sent > 0) show(new_row, sizeof new_row - 1);
    return line;
}

/* None is null: each call writes to all of them. */
static bool make_buffers(struct line_reader *reader, size_t history)
{
    return grow(&reader->keys, READ_SIZE) && grow(&reader->display, 1) && grow(&reader->line, 1) && grow(&reader->kills, 1) &&
           grow(&reader->history, history + 1) && grow(&reader->new_kills, 1) && grow(&reader->new_history, 1);
}

struct line_reader *line_open(const struct line_settings *settings)
{
    struct line_reader *reader = calloc(1, sizeof *reader);
    if (reader == NULL) return NULL;
    if (!make_buffers(reader, settings->history.length)) {
        line_close(reader);
        return NULL;
    }
    reader->options.mode = settings->mode;
    reader->options.brackets = settings->brackets;
    reader->given.words = settings->words;
    reader->given.ends = reader->ends;
    if (settings->history.length > 0) memcpy(reader->history.bytes, settings->history.bytes, settings->history.length);
    reader->given.history = (struct keyline_text){reader->history.bytes, settings->history.length};
    return reader;
}

void line_close(struct line_reader *reader)
{
    if (reader == NULL) return;
    free(reader->keys.bytes);
    free(reader->display.bytes);
    free(reader->line.bytes);
    free(reader->history.bytes);
    free(reader->kills.bytes);
    free(reader->new_history.bytes);
    free(reader->new_kills.bytes);
    free(reader);
}

void line_set_words(struct line_reader *reader, struct keyline_text words)
{
    reader->given.words = words;
}

struct keyline_text line_history(const struct line_reader *reader)
{
    return reader->given.history;
}
