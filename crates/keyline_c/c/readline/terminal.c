/* The terminal: its settings, its size, its keys, and signals. While a line is read, the signals below are blocked except in
 * `await`. So none comes inside keyline_line or malloc, and a program's handler may leave by longjmp. */
#include "internal.h"
#include <errno.h>
#include <poll.h>
#include <signal.h>
#include <sys/ioctl.h>
#include <termios.h>
#include <unistd.h>

enum { DEFAULT_ROWS = 24, DEFAULT_COLUMNS = 80, MIN_COLUMNS = 2, MAX_COLUMNS = 1000 };

/* Bracketed paste: the terminal sends marks around pasted text. */
static const char paste_on[] = "\033[?2004h", paste_off[] = "\033[?2004l\r";

static const int held[] = {SIGINT, SIGTERM, SIGHUP, SIGQUIT, SIGALRM, SIGTSTP, SIGTTIN, SIGTTOU, SIGWINCH};
enum { HELD = sizeof held / sizeof *held };

int rl_catch_signals = 1, rl_catch_sigwinch = 1;

static struct termios found;  /* the terminal's settings before a line */
static bool is_raw, is_marked;
static bool are_held;
static struct sigaction actions[HELD];
static sigset_t mask;         /* the program's own */
static volatile sig_atomic_t has_come[HELD];
static int set_rows, set_columns;
static int waiting;           /* bytes that can be read at once, for sure */

static FILE *input(void)
{
    return rl_instream != NULL ? rl_instream : stdin;
}

static FILE *output(void)
{
    return rl_outstream != NULL ? rl_outstream : stdout;
}

bool terminal_has_keys(void)
{
    return isatty(fileno(input()));
}

bool terminal_is_drawn_on(void)
{
    const char *name = rl_terminal_name != NULL ? rl_terminal_name : getenv("TERM");
    return terminal_has_keys() && name != NULL && strcmp(name, "dumb") != 0;
}

void terminal_send(const char *bytes, size_t count)
{
    if (count == 0) return;
    fwrite(bytes, 1, count, output());
    fflush(output());
}

void terminal_send_text(const char *text)
{
    terminal_send(text, strlen(text));
}

/* ---- settings ---- */

static void restore_at_exit(void)
{
    rl_deprep_terminal();
}

/* Keys come byte by byte. Ctrl-C, Ctrl-Z and Ctrl-\ stay signals. A terminal that isn't drawn on stays as it is. */
void rl_prep_terminal(int meta)
{
    static bool is_registered;
    struct termios raw;
    (void)meta;
    if (is_raw || !terminal_is_drawn_on() || tcgetattr(fileno(input()), &found) != 0) return;
    if (!is_registered) atexit(restore_at_exit);
    is_registered = true;
    raw = found;
    raw.c_iflag &= ~(tcflag_t)(ICRNL | INLCR | IXON);
    raw.c_lflag &= ~(tcflag_t)(ICANON | ECHO | IEXTEN);
    raw.c_cc[VMIN] = 1;
    raw.c_cc[VTIME] = 0;
    is_raw = tcsetattr(fileno(input()), TCSADRAIN, &raw) == 0;
    is_marked = is_raw && pastes_are_marked;
    if (is_marked) terminal_send_text(paste_on);
}

void rl_deprep_terminal(void)
{
    if (!is_raw) return;
    if (is_marked) terminal_send_text(paste_off);
    tcsetattr(fileno(input()), TCSADRAIN, &found);
    is_raw = false;
}

/* ---- size ---- */

static int first_above_zero(int one, int two, int three)
{
    return one > 0 ? one : two > 0 ? two : three;
}

void rl_get_screen_size(int *rows, int *columns)
{
    struct winsize size = {0};
    const char *given = getenv("COLUMNS");
    if (ioctl(fileno(output()), TIOCGWINSZ, &size) != 0) ioctl(fileno(input()), TIOCGWINSZ, &size);
    if (size.ws_col == 0 && given != NULL) size.ws_col = (unsigned short)atoi(given);
    if (rows != NULL) *rows = first_above_zero(set_rows, size.ws_row, DEFAULT_ROWS);
    if (columns != NULL) *columns = first_above_zero(set_columns, size.ws_col, DEFAULT_COLUMNS);
}

void rl_set_screen_size(int rows, int columns)
{
    set_rows = rows;
    set_columns = columns;
}

void rl_reset_screen_size(void)
{
    rl_set_screen_size(0, 0);
}

uint16_t terminal_columns(void)
{
    int columns;
    rl_get_screen_size(NULL, &columns);
    return (uint16_t)(columns < MIN_COLUMNS ? MIN_COLUMNS : columns > MAX_COLUMNS ? MAX_COLUMNS : columns);
}

/* ---- signals ---- */

static void note_signal(int number)
{
    for (int i = 0; i < HELD; i++)
        if (held[i] == number) has_come[i] = 1;
}

/* A signal that the program ignores stays ignored. */
void signals_hold(void)
{
    struct sigaction action = {.sa_handler = note_signal};
    sigset_t blocked;
    if (are_held || !rl_catch_signals) return;
    sigemptyset(&action.sa_mask);
    sigemptyset(&blocked);
    for (int i = 0; i < HELD; i++) sigaddset(&blocked, held[i]);
    sigprocmask(SIG_BLOCK, &blocked, &mask);
    for (int i = 0; i < HELD; i++) {
        sigaction(held[i], NULL, &actions[i]);
        if (actions[i].sa_handler != SIG_IGN) sigaction(held[i], &action, NULL);
    }
    are_held = true;
}

void signals_release(void)
{
    if (!are_held) return;
    are_held = false;
    for (int i = 0; i < HELD; i++) sigaction(held[i], &actions[i], NULL);
    sigprocmask(SIG_SETMASK, &mask, NULL);
}

void rl_echo_signal_char(int number)
{
    if (number == SIGINT) terminal_send_text("^C");
    if (number == SIGTSTP) terminal_send_text("^Z");
    if (number == SIGQUIT) terminal_send_text("^\\");
}

/* Lets a signal act in the program, with the terminal as it was found. If that comes back the line goes on below. */
static void act(int number)
{
    line_leave();
    rl_echo_signal_char(number);
    rl_deprep_terminal();
    signals_release();
    raise(number);
    signals_hold();
    rl_prep_terminal(1);
    terminal_send_text("\r\n");
    line_redraw(true);
}

static void act_on_resize(void)
{
    signals_release();
    raise(SIGWINCH);
    signals_hold();
    if (rl_catch_sigwinch) line_resize();
}

static void act_on_signals(void)
{
    for (int i = 0; i < HELD; i++) {
        if (!has_come[i]) continue;
        has_come[i] = 0;
        if (held[i] == SIGWINCH) act_on_resize();
        else act(held[i]);
    }
}

/* ---- keys ---- */

/* Waits for a byte, so long at most; meanwhile the signals of `during` alone are blocked. */
static bool await(const struct timespec *limit, const sigset_t *during)
{
    struct pollfd keys = {.fd = fileno(input()), .events = POLLIN};
    return ppoll(&keys, 1, limit, during) > 0;
}

bool terminal_has_more(void)
{
    static const struct timespec none;
    if (rl_getc_function != rl_getc) return false;
    if (waiting == 0 && ioctl(fileno(input()), FIONREAD, &waiting) != 0) waiting = 0;
    return waiting > 0 || await(&none, NULL);
}

bool terminal_await(void)
{
    return are_held || waiting > 0 || rl_getc_function != rl_getc || await(NULL, NULL);
}

/* A byte by the program's function, which may look at the line and change it. */
static int read_by_program(void)
{
    bool were_held = are_held;
    int byte;
    line_look();
    signals_release();
    byte = rl_getc_function(input());
    if (were_held) signals_hold();
    line_absorb();
    return byte;
}

int terminal_read(void)
{
    static const struct timespec tenth = {.tv_nsec = 100000000}, half = {.tv_nsec = 500000000};
    if (rl_getc_function != rl_getc) return read_by_program();
    while (are_held && waiting == 0) {
        bool after_esc = line_waits_after_esc();
        const struct timespec *limit = after_esc ? &half : rl_event_hook != NULL ? &tenth : NULL;
        if (await(limit, &mask)) break;
        act_on_signals();
        if (after_esc) line_end_esc();
        if (rl_event_hook != NULL) rl_event_hook();
        if (rl_done) return EOF;
    }
    if (waiting > 0) waiting--;
    return rl_getc(input());
}

int rl_getc(FILE *stream)
{
    unsigned char byte;
    ssize_t count;
    do count = read(fileno(stream), &byte, 1);
    while (count < 0 && errno == EINTR);
    return count == 1 ? byte : EOF;
}
