/* What the parts of libkeyline-readline know of each other. Nothing here is proved, except what keyline_line answers.
 *
 *   text.c          bytes that grow, UTF-8, columns
 *   tabs.c          what keyline_line is handed for a tab
 *   prompt.c        prompts with marks, colours and several rows
 *   display.c       what is sent, and where the display's cursor stands
 *   open_line.c     the line that is typed: its keys, over keyline_line
 *   terminal.c      the terminal's settings, its size and its keys; signals
 *   readline.c      readline() and the calls for event loops
 *   keys.c          keys that programs bind, and inputrc
 *   commands.c      commands that keyline_line lacks, made of what it has
 *   complete.c      completion by the program's functions
 *   history.c       the history's list
 *   history_file.c  its files */
#ifndef KEYLINE_READLINE_INTERNAL_H
#define KEYLINE_READLINE_INTERNAL_H
#define _GNU_SOURCE /* ppoll */
#include "keyline.h"
#include <readline/readline.h>
#include <stdbool.h>
#include <stddef.h>
#include <stdint.h>
#include <stdlib.h>
#include <string.h>

/* The byte that Ctrl and a letter send. */
#define CTRL(letter) ((letter) & 0x1F)

/* The bytes around a paste, and those of a whole drawing's beginning. */
#define PASTE "\033[200~"
#define PASTED "\033[201~"
#define WHOLE "\r\033[J"

/* ---- text.c ---- */

/* If memory runs out the program ends, as with readline. */
_Noreturn void end_without_memory(void);
void *allocate(void *old, size_t size);

/* Bytes that grow, with a zero behind them that isn't counted. */
struct bytes {
    char *at;
    size_t length, size;
};
void bytes_reserve(struct bytes *b, size_t size);
void bytes_add(struct bytes *b, const void *more, size_t count);
void bytes_add_text(struct bytes *b, const char *text);
/* Each byte that isn't UTF-8 is replaced by a question mark. */
void bytes_add_utf8(struct bytes *b, const char *text, size_t count);
void bytes_clear(struct bytes *b);
bool bytes_end_with(const struct bytes *b, const char *text, size_t length);
char *copy_of(const char *bytes, size_t count);
const char *find_bytes(const char *at, size_t count, const char *text);
/* The bytes of the character at the front; 0 if it isn't UTF-8. */
size_t character_length(const char *at, size_t count);
/* The columns of a character, and of a text, as most terminals count them. */
size_t character_columns(const char *at, size_t length);
size_t text_columns(const char *text);

/* ---- tabs.c ---- */

/* Whether a text has what is changed by these. */
bool tabs_are_in(const char *at, size_t count);
/* Adds a text, or keys, as keyline_line is handed it; and a text that it answers, as the program has it. */
void tabs_hide(struct bytes *to, const char *text, size_t count);
void tabs_hide_in_keys(struct bytes *to, const char *keys, size_t count);
void tabs_restore(struct bytes *to, const char *text, size_t count);
void tabs_restore_in_keys(struct bytes *to, const char *keys, size_t count);
/* Adds bytes of a drawing as they are sent. */
void tabs_show(struct bytes *to, const char *drawing, size_t count);

/* ---- prompt.c ---- */

struct prompt {
    struct bytes before; /* rows above the line's, which are sent as they are */
    struct bytes last;   /* the last row, as the program gave it */
    struct bytes seen;   /* the same without what takes no column: the prompt of the call */
    struct bytes drawn;  /* how the call draws it */
    struct bytes shown;  /* what is sent instead: with the colours */
};
void prompt_set(struct prompt *p, const char *text);
/* Learns from the drawing of an empty line how the prompt is drawn. */
void prompt_learn(struct prompt *p, const char *drawing, size_t count);
/* Whether the prompt is drawn at the front of these bytes. */
bool prompt_stands(const struct prompt *p, const char *at, size_t count);

/* ---- display.c ---- */

/* Sends bytes of a drawing, with the prompt's colours. Nothing is sent if the terminal isn't drawn on. */
void display_draw(const struct prompt *p, const char *at, size_t count);
/* The cursor's row is the one in which the prompt's last row begins. */
void display_begin(void);
/* Whether the cursor stands at the beginning of a row below it; after a line's end that row is blank. */
bool display_is_in_blank_row(void);
/* Moves to the prompt's row. */
void display_to_top(void);
/* Takes the rows into account that a narrower terminal has broken. */
void display_narrow(size_t columns);

/* ---- open_line.c ---- */

/* Whether the line is drawn, and nothing else was sent since. */
extern bool line_is_drawn;
void line_begin(const char *prompt);
/* Takes keys and draws. Answers a keyline_status up to KEYLINE_END; keys that the call rejects are left out. */
uint8_t line_feed(const char *keys, size_t count);
/* Copies text and cursor of the open line to rl_line_buffer, rl_end and rl_point. False if no character could be typed after
 * these keys: inside another key, in a paste, in Vi's command mode. */
bool line_look(void);
/* Makes the line what the program has made of rl_line_buffer, rl_end and rl_point since. */
void line_absorb(void);
/* Sets rl_line_buffer, rl_end and rl_point. */
void line_set(const char *text, size_t length, size_t point);
/* The prompt from the next whole drawing on. */
void line_set_prompt(const char *prompt);
/* Moves the display's cursor behind the line, for what else is written. */
void line_leave(void);
/* Draws the line anew: in the cursor's row, or in its own place. */
void line_redraw(bool here);
void line_resize(void);
/* Erases the drawing. */
void line_erase(void);
/* Whether Vi's Esc came last, which acts when the next byte comes; and makes it act. */
bool line_waits_after_esc(void);
void line_end_esc(void);
/* Ends the line as it stands, without a drawing. NULL if it can't end here. */
char *line_accept(void);
/* The line that has ended, which the caller frees; and the keys after it. */
char *line_text(void);
size_t line_rest(const char **keys);

/* ---- terminal.c ---- */

/* Whether keys come from a terminal, and whether it is drawn on: TERM may say that it can't be. */
bool terminal_has_keys(void);
bool terminal_is_drawn_on(void);
uint16_t terminal_columns(void);
void terminal_send(const char *bytes, size_t count);
void terminal_send_text(const char *text);
/* A byte, or EOF. Signals act and the program's hook runs while it is awaited. */
int terminal_read(void);
bool terminal_has_more(void);
/* Waits for a byte. False if a signal came that isn't held. */
bool terminal_await(void);
/* While signals are held they act only as keys are awaited. */
void signals_hold(void);
void signals_release(void);

/* ---- readline.c ---- */

/* Whether pastes are marked; the setting enable-bracketed-paste. */
extern bool pastes_are_marked;
/* Gives keys to the open line, and notes if it has ended. */
void feed_line(const char *keys, size_t count);
/* A key before all others that are to be read. */
void read_again(char key);
/* The next key of a command, or EOF if the input ends or a signal interrupts it. */
int next_key(void);

/* ---- keys.c ---- */

/* The longest bound key, in bytes. */
enum { LONGEST_KEY = 8 };
/* The function bound to a key with which these bytes end, and the key's length; or NULL. */
rl_command_func_t *bound_at_end(const struct bytes *keys, size_t *length);
/* How many bytes at the end of these begin a bound key. */
size_t begun_key(const struct bytes *keys);
/* Whether Tab shows the candidates at once; the setting show-all-if-ambiguous. */
extern bool shows_all;
/* Whether rl_ding is silent; the setting bell-style. */
extern bool is_silent;

/* ---- commands.c ---- */

rl_command_func_t command_previous, command_next, command_line_start, command_line_end, command_clear_screen;
rl_command_func_t command_quoted_insert, command_last_word, command_search_back, command_search_on;
rl_command_func_t command_prefix_back, command_prefix_on;

/* ---- history.c ---- */

/* Entries of the history that a line has: each of them costs a little at each key. */
enum { MOST_ENTRIES = 1000 };

/* The newest entries, as the text of a history that keyline_line is handed. */
void history_add_text(struct bytes *text);
#endif
