/* Lines over keyline.h itself: Tab completes the program's own words, Alt-? lists them, and the line is drawn anew if the
 * window's width changes. A program that needs none of this is shorter over line.h, as console.c. */
#define _POSIX_C_SOURCE 200809L
#include "keyline.h"
#include <errno.h>
#include <signal.h>
#include <stdio.h>
#include <string.h>
#include <sys/ioctl.h>
#include <sys/select.h>
#include <termios.h>
#include <unistd.h>

static const char *const words[] = {"clear", "close", "copy", "help", "open", "quit"};
enum { WORDS = sizeof words / sizeof *words };

/* The keys that this program asks for, a zero after each. */
static const char tab[] = "\t", list_key[] = "\033?", asks[] = "\t\0\033?";

/* Neither a history nor a kill ring is kept from line to line: their buffers are null. */
static uint8_t keys[4096], display[1 << 16], line[4096];
static size_t filled;
static struct keyline_options options = {.mode = KEYLINE_EMACS};
static struct keyline_given given = {.prompt = {(const uint8_t *)"> ", 2}, .asks = {(const uint8_t *)asks, sizeof asks}};
static const struct keyline_room room = {.display = {display, sizeof display}, .line = {line, sizeof line}};
static struct keyline_step step;

static struct termios found;
static volatile sig_atomic_t has_new_width = true;

static void note(int number)
{
    (void)number;
    has_new_width = true;
}

static void send(const void *bytes, size_t length)
{
    const char *at = bytes;
    while (length > 0) {
        ssize_t count = write(STDERR_FILENO, at, length);
        if (count < 0 && errno != EINTR) return;
        if (count < 0) continue;
        at += count;
        length -= (size_t)count;
    }
}

static void send_text(const char *text)
{
    send(text, strlen(text));
}

/* Keys come one by one, and Ctrl-C and Enter as keys. Puts the terminal back if it isn't taken. */
static void take_terminal(bool is_taken)
{
    struct termios raw = found;
    raw.c_iflag &= ~(tcflag_t)(ICRNL | INLCR | IGNCR | ISTRIP | IXON);
    raw.c_lflag &= ~(tcflag_t)(ICANON | ECHO | IEXTEN);
    raw.c_cc[VINTR] = _POSIX_VDISABLE;
    raw.c_cc[VMIN] = 1;
    raw.c_cc[VTIME] = 0;
    if (isatty(STDIN_FILENO)) tcsetattr(STDIN_FILENO, TCSANOW, is_taken ? &raw : &found);
}

/* The line begins anew at the top of an empty screen, in rows of the new width. */
static void measure(bool is_open)
{
    struct winsize size;
    has_new_width = false;
    options.columns = 80;
    if (ioctl(STDERR_FILENO, TIOCGWINSZ, &size) == 0 && size.ws_col >= 2 && size.ws_col <= 1000) options.columns = size.ws_col;
    if (is_open) send_text("\033[H\033[2J");
    options.sent = 0;
}

/* Waits for keys, or for a new width. False if the keys can't be read. */
static bool read_keys(void)
{
    fd_set files;
    sigset_t none;
    ssize_t count;
    sigemptyset(&none);
    FD_ZERO(&files);
    FD_SET(STDIN_FILENO, &files);
    if (pselect(STDIN_FILENO + 1, &files, NULL, NULL, NULL, &none) < 0) return errno == EINTR;
    if (filled == sizeof keys) return false;
    count = read(STDIN_FILENO, keys + filled, sizeof keys - filled);
    if (count < 0) return errno == EINTR;
    filled += (size_t)count;
    options.ended = count == 0;
    return true;
}

/* Puts a text in place of the key that was asked for: it is typed. */
static void type(const char *key, const char *text, size_t length)
{
    size_t at = step.keys - strlen(key), rest = filled - step.keys;
    if (at + length + rest > sizeof keys) length = 0;
    memmove(keys + at + length, keys + step.keys, rest);
    memcpy(keys + at, text, length);
    filled = at + length + rest;
}

/* Shows the words that begin so below the line, which then begins anew. */
static void list(const char *front, size_t length)
{
    send_text("\r\n\033[J");
    for (int it = 0; it < WORDS; it++) {
        if (strncmp(words[it], front, length) != 0) continue;
        send_text(words[it]);
        send_text("  ");
    }
    send_text("\r\n");
    options.sent = 0;
}

/* Types what all words have in common that begin like the one before the cursor, or lists them. */
static void complete(void)
{
    const char *text = (const char *)line + step.cursor, *first = NULL;
    size_t front = 0, common = 0, count = 0;
    while (front < step.cursor && text[-1] != ' ') text--, front++;
    for (int it = 0; it < WORDS; it++) {
        if (strncmp(words[it], text, front) != 0) continue;
        if (count++ == 0) first = words[it], common = strlen(first);
        while (strncmp(words[it], first, common) != 0) common--;
    }
    type(tab, first + (count > 0 ? front : 0), count > 0 ? common - front : 0);
    if (count == 0) send_text("\a");
    else if (count > 1 && common == front) list(text, front);
}

/* What becomes of a key that was asked for, which is the last of the line's. */
static void answer(void)
{
    if (keys[step.keys - 1] == '\t') {
        complete();
    } else {
        type(list_key, "", 0);
        list("", 0);
    }
}

/* Reads a line; its status is the step's. */
static void read_line(void)
{
    options.sent = 0;
    for (;;) {
        given.keys = (struct keyline_text){keys, filled};
        keyline_line(&options, &given, &room, &step);
        if (step.status == KEYLINE_ROOM || step.status == KEYLINE_MEMORY || step.status == KEYLINE_ARGUMENT) return;
        send(display, step.display);
        options.sent = step.sent;
        if (step.status == KEYLINE_ASKED) answer();
        else if (step.status != KEYLINE_MORE || !read_keys()) break;
        if (has_new_width) measure(true);
    }
    filled -= step.keys;
    memmove(keys, keys + step.keys, filled);
}

int main(void)
{
    struct sigaction action = {.sa_handler = note};
    sigset_t width;
    sigemptyset(&width);
    sigaddset(&width, SIGWINCH);
    sigprocmask(SIG_BLOCK, &width, NULL);
    sigaction(SIGWINCH, &action, NULL);
    tcgetattr(STDIN_FILENO, &found);
    do {
        measure(false);
        take_terminal(true);
        read_line();
        take_terminal(false);
        if (step.status == KEYLINE_LINE) printf("got: %.*s\n", (int)step.line, (const char *)line);
        fflush(stdout);
    } while (step.status == KEYLINE_LINE || step.status == KEYLINE_INTERRUPTED);
    if (step.status == KEYLINE_END) return 0;
    fprintf(stderr, "\ncomplete: %s\n", keyline_status_text(step.status));
    return 1;
}
