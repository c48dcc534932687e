/* readline(), the calls for event loops, and what programs do to the open line and its prompt. */
#include "internal.h"
#include <stdarg.h>

const char *rl_library_version = "8.2", *rl_readline_name = "other", *rl_terminal_name;
int rl_readline_version = RL_READLINE_VERSION, rl_gnu_readline_p = 1;
int rl_point, rl_end, rl_mark, rl_done, rl_eof_found, rl_editing_mode = 1, rl_already_prompted, rl_erase_empty_line;
unsigned long rl_readline_state;
char *rl_prompt, *rl_display_prompt, *rl_line_buffer;
FILE *rl_instream, *rl_outstream;
rl_command_func_t *rl_last_func;
rl_hook_func_t *rl_startup_hook, *rl_pre_input_hook, *rl_event_hook;
rl_getc_func_t *rl_getc_function = rl_getc;
rl_voidfunc_t *rl_redisplay_function = rl_redisplay, *rl_deprep_term_function = rl_deprep_terminal;
rl_vintfunc_t *rl_prep_term_function = rl_prep_terminal;
bool pastes_are_marked = true;

static struct bytes unplayed; /* keys that were read, of a command or a paste that isn't whole */
static struct bytes earlier;  /* keys that come before those of the terminal */
static bool in_paste, is_open, has_ended, is_input_over;
static char *line, *saved_prompt;
static rl_vcpfunc_t *handler;

/* ---- prompts ---- */

static char *or_empty(char *text)
{
    static char empty[1];
    return text != NULL ? text : empty;
}

int rl_set_prompt(const char *prompt)
{
    char *old = rl_prompt;
    if (prompt == NULL) prompt = "";
    rl_prompt = copy_of(prompt, strlen(prompt));
    rl_display_prompt = rl_prompt;
    free(old);
    if (is_open) line_set_prompt(rl_prompt);
    return 0;
}

void rl_save_prompt(void)
{
    char *prompt = or_empty(rl_prompt);
    free(saved_prompt);
    saved_prompt = copy_of(prompt, strlen(prompt));
    rl_set_prompt("");
}

void rl_restore_prompt(void)
{
    rl_set_prompt(saved_prompt);
}

/* Shows a text in the prompt's place. */
int rl_message(const char *format, ...)
{
    char text[1024];
    va_list words;
    va_start(words, format);
    vsnprintf(text, sizeof text, format, words);
    va_end(words);
    line_set_prompt(text);
    rl_redisplay();
    return 0;
}

int rl_clear_message(void)
{
    line_set_prompt(or_empty(rl_prompt));
    rl_redisplay();
    return 0;
}

/* ---- the line's text, as programs change it ---- */

int rl_insert_text(const char *text)
{
    size_t length = strlen(text), point = (size_t)rl_point;
    struct bytes now = {0};
    if (rl_line_buffer != NULL) bytes_add(&now, rl_line_buffer, point);
    bytes_add(&now, text, length);
    if (rl_line_buffer != NULL) bytes_add(&now, rl_line_buffer + point, (size_t)rl_end - point);
    line_set(now.at, now.length, point + length);
    free(now.at);
    return (int)length;
}

int rl_delete_text(int from, int to)
{
    if (from > to || from < 0 || to > rl_end) return 0;
    memmove(rl_line_buffer + from, rl_line_buffer + to, (size_t)(rl_end - to) + 1);
    rl_end -= to - from;
    if (rl_point > rl_end) rl_point = rl_end;
    return to - from;
}

void rl_replace_line(const char *text, int clear_undo)
{
    size_t length = strlen(text);
    (void)clear_undo;
    line_set(text, length, (size_t)rl_point > length ? length : (size_t)rl_point);
}

char *rl_copy_text(int from, int to)
{
    return from < to ? copy_of(rl_line_buffer + from, (size_t)(to - from)) : copy_of("", 0);
}

/* ---- the display ---- */

void rl_redisplay(void)
{
    if (!is_open) return;
    line_absorb();
    if (!line_is_drawn) line_redraw(true);
}

int rl_forced_update_display(void)
{
    line_is_drawn = false;
    rl_redisplay();
    return 0;
}

int rl_on_new_line(void)
{
    line_is_drawn = false;
    return 0;
}

int rl_clear_visible_line(void)
{
    line_erase();
    return 0;
}

int rl_crlf(void)
{
    terminal_send_text("\r\n");
    return 0;
}

int rl_ding(void)
{
    if (!is_silent && terminal_is_drawn_on()) terminal_send_text("\a");
    return 0;
}

void rl_resize_terminal(void)
{
    if (is_open && line_is_drawn) line_resize();
}

/* ---- keys ---- */

int rl_stuff_char(int key)
{
    char byte = (char)key;
    bytes_add(&earlier, &byte, 1);
    return 1;
}

/* Puts keys before all that are to be read. */
static void put_back(const char *keys, size_t count)
{
    struct bytes all = {0};
    bytes_add(&all, keys, count);
    bytes_add(&all, earlier.at, earlier.length);
    free(earlier.at);
    earlier = all;
}

void read_again(char key)
{
    put_back(&key, 1);
}

int rl_read_key(void)
{
    unsigned char byte;
    if (earlier.length == 0) return terminal_read();
    byte = (unsigned char)earlier.at[0];
    memmove(earlier.at, earlier.at + 1, --earlier.length);
    return byte;
}

int next_key(void)
{
    return earlier.length > 0 || terminal_await() ? rl_read_key() : EOF;
}

static bool ends_gathering(char byte)
{
    size_t length;
    return !in_paste && (byte == '\r' || byte == '\n' || byte == CTRL('D') || bound_at_end(&unplayed, &length) != NULL);
}

/* Reads keys as far as they are there, but none after one that is bound or may end the line: those may be for what the program
 * runs next. False at the end of the input. */
static bool gather(void)
{
    do {
        int key = rl_read_key();
        char byte = (char)key;
        is_input_over = key == EOF;
        if (is_input_over) return unplayed.length > 0 && !in_paste;
        bytes_add(&unplayed, &byte, 1);
        if (bytes_end_with(&unplayed, PASTE, 6)) in_paste = true;
        if (bytes_end_with(&unplayed, PASTED, 6)) in_paste = false;
        if (ends_gathering(byte)) break;
    } while (earlier.length > 0 || terminal_has_more());
    return true;
}

/* ---- playing keys ---- */

/* The line has ended. Where keys come from no terminal it is written, as a terminal would echo it. */
static void end(uint8_t status)
{
    const char *rest;
    size_t count = line_rest(&rest);
    line = status == KEYLINE_LINE ? line_text() : NULL;
    if (line != NULL && !terminal_has_keys()) {
        terminal_send_text(line);
        terminal_send_text("\n");
    }
    put_back(rest, count);
    rl_eof_found = status == KEYLINE_END;
    has_ended = true;
}

void feed_line(const char *keys, size_t count)
{
    uint8_t status = line_feed(keys, count);
    if (status != KEYLINE_MORE) end(status);
    else line_look();
}

/* Ends the line as it stands, since the program has set rl_done. */
static void end_now(void)
{
    line = line_accept();
    has_ended = true;
}

/* Lets a function act on the line. False if no key would be typed here. */
static bool act_on_line(rl_command_func_t *function, int key)
{
    if (!line_look()) return false;
    function(1, key);
    rl_last_func = function;
    if (has_ended) return true;
    line_absorb();
    if (rl_done) end_now();
    else if (!line_is_drawn) line_redraw(true);
    return true;
}

/* Plays keys, of which at most the last is bound. */
static void play(const struct bytes *keys)
{
    size_t length = 0, front;
    rl_command_func_t *function = bound_at_end(keys, &length);
    front = keys->length - length;
    if (front > 0) {
        uint8_t status = line_feed(keys->at, function != NULL ? front : keys->length);
        rl_last_func = NULL;
        if (status != KEYLINE_MORE) end(status);
    }
    if (function == NULL) return;
    if (has_ended) put_back(keys->at + front, length);
    else if (!act_on_line(function, (unsigned char)keys->at[keys->length - 1])) feed_line(keys->at + front, length);
}

/* The input has ended: the line is what stands, or none. */
static void play_end(void)
{
    bytes_clear(&unplayed);
    in_paste = false;
    if (!line_look()) feed_line("\r", 1); /* ends whatever key is open */
    if (!has_ended && line_look() && rl_end > 0) feed_line("\r", 1);
    if (has_ended) return;
    line = NULL;
    rl_eof_found = has_ended = true;
    if (terminal_is_drawn_on() && pastes_are_marked) rl_crlf();
}

/* Waits for keys and plays them, except those at the end that may begin a bound key. */
static void play_next(void)
{
    struct bytes keys = {0};
    size_t begun;
    if (!gather()) {
        if (rl_done) end_now();
        else play_end();
        return;
    }
    if (in_paste) return;
    begun = is_input_over ? 0 : begun_key(&unplayed);
    bytes_add(&keys, unplayed.at, unplayed.length - begun);
    memmove(unplayed.at, unplayed.at + keys.length, begun);
    unplayed.length = begun;
    play(&keys);
    free(keys.at);
}

/* ---- a line from its beginning to its end ---- */

int rl_initialize(void)
{
    if (!RL_ISSTATE(RL_STATE_INITIALIZED)) rl_read_init_file(NULL);
    RL_SETSTATE(RL_STATE_INITIALIZED);
    if (rl_instream == NULL) rl_instream = stdin;
    if (rl_outstream == NULL) rl_outstream = stdout;
    if (rl_line_buffer == NULL) line_set("", 0, 0);
    using_history();
    return 0;
}

static void begin(void)
{
    rl_initialize();
    is_open = true;
    has_ended = in_paste = false;
    rl_done = rl_eof_found = 0;
    rl_last_func = NULL;
    bytes_clear(&unplayed);
    RL_SETSTATE(RL_STATE_READCMD);
    RL_UNSETSTATE(RL_STATE_DONE);
    if (rl_prep_term_function != NULL) rl_prep_term_function(1);
    line_begin(rl_prompt);
    if (rl_startup_hook != NULL) rl_startup_hook();
    if (rl_end > 0) line_absorb();
    else line_feed("", 0);
    rl_already_prompted = 0;
    line_look();
    if (rl_pre_input_hook == NULL) return;
    rl_pre_input_hook();
    line_absorb();
}

static void finish(void)
{
    is_open = false;
    RL_UNSETSTATE(RL_STATE_READCMD);
    RL_SETSTATE(RL_STATE_DONE);
    if (line != NULL) line_set(line, strlen(line), strlen(line));
    if (rl_deprep_term_function != NULL) rl_deprep_term_function();
}

char *readline(const char *prompt)
{
    char *read;
    rl_set_prompt(prompt);
    signals_hold();
    begin();
    while (!has_ended) play_next();
    finish();
    signals_release();
    read = line;
    line = NULL;
    return read;
}

void rl_callback_handler_install(const char *prompt, rl_vcpfunc_t *function)
{
    rl_set_prompt(prompt);
    handler = function;
    RL_SETSTATE(RL_STATE_CALLBACK);
    begin();
}

void rl_callback_handler_remove(void)
{
    handler = NULL;
    RL_UNSETSTATE(RL_STATE_CALLBACK);
    if (is_open) finish();
}

static void hand_over(void)
{
    char *read = line;
    finish();
    line = NULL;
    handler(read);
    if (handler != NULL && !is_open) begin();
}

/* The program looks at the line between two calls. */
void rl_callback_read_char(void)
{
    if (handler == NULL) {
        fputs("readline: rl_callback_read_char without a handler\n", stderr);
        abort();
    }
    do {
        if (!is_open) begin();
        play_next();
        if (has_ended) hand_over();
        else line_look();
    } while (handler != NULL && earlier.length > 0);
}

void rl_callback_sigcleanup(void)
{
}

void rl_cleanup_after_signal(void)
{
    rl_deprep_terminal();
    signals_release();
}

void rl_reset_after_signal(void)
{
    if (rl_prep_term_function != NULL) rl_prep_term_function(1);
    if (is_open && handler == NULL) signals_hold();
}

/* The program has left the line, as by longjmp from a handler. */
void rl_free_line_state(void)
{
    bytes_clear(&unplayed);
    in_paste = false;
    if (handler == NULL) is_open = false;
}
