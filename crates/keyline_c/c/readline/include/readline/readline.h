/* libkeyline-readline: the interface of readline, as far as it is there, over the proved line editor keyline. The names and
 * types are readline's, so programs compile against either, and a program that is linked to one runs on the other. What is
 * there, and what isn't, stands in keyline-readline(3). */
#ifndef KEYLINE_READLINE_H
#define KEYLINE_READLINE_H
#include <stdio.h>
#include <readline/history.h>

#ifdef __cplusplus
extern "C" {
#endif

#define READLINE_LIBRARY 1
#define RL_READLINE_VERSION 0x0802
#define RL_VERSION_MAJOR 8
#define RL_VERSION_MINOR 2

typedef int rl_command_func_t(int count, int key);
typedef char *rl_compentry_func_t(const char *text, int again);
typedef char **rl_completion_func_t(const char *text, int start, int end);
typedef void rl_compdisp_func_t(char **list, int count, int longest);
typedef int rl_compignore_func_t(char **list);
typedef char *rl_quote_func_t(char *text, int type, char *quote);
typedef char *rl_dequote_func_t(char *text, int quote);
typedef int rl_linebuf_func_t(char *line, int place);
typedef char *rl_cpvfunc_t(void);
typedef int rl_hook_func_t(void);
typedef void rl_voidfunc_t(void);
typedef void rl_vintfunc_t(int);
typedef void rl_vcpfunc_t(char *line);
typedef int rl_getc_func_t(FILE *stream);

/* A line. NULL is the end of the input; else the caller frees it. */
char *readline(const char *prompt);

/* Lines for programs with a loop of their own. */
void rl_callback_handler_install(const char *prompt, rl_vcpfunc_t *handler);
void rl_callback_read_char(void);
void rl_callback_handler_remove(void);
void rl_callback_sigcleanup(void);

/* About the program and the library. */
extern const char *rl_readline_name, *rl_library_version, *rl_terminal_name;
extern int rl_readline_version, rl_gnu_readline_p;
extern FILE *rl_instream, *rl_outstream;
int rl_initialize(void);

/* The open line, which is rl_end bytes long, and its cursor. */
extern char *rl_line_buffer;
extern int rl_point, rl_end, rl_mark, rl_done, rl_eof_found;
int rl_insert_text(const char *text);
int rl_delete_text(int from, int to);
void rl_replace_line(const char *text, int clear_undo);
char *rl_copy_text(int from, int to);

/* What is being done. */
extern unsigned long rl_readline_state;
#define RL_STATE_NONE 0x0000000
#define RL_STATE_INITIALIZED 0x0000002
#define RL_STATE_READCMD 0x0000008
#define RL_STATE_COMPLETING 0x0004000
#define RL_STATE_CALLBACK 0x0080000
#define RL_STATE_DONE 0x2000000
#define RL_SETSTATE(x) (rl_readline_state |= (x))
#define RL_UNSETSTATE(x) (rl_readline_state &= ~(unsigned long)(x))
#define RL_ISSTATE(x) (rl_readline_state & (x))

/* Functions of the program that are called: at a line's beginning, once it is drawn, while keys are awaited, for a key. */
extern rl_hook_func_t *rl_startup_hook, *rl_pre_input_hook, *rl_event_hook;
extern rl_getc_func_t *rl_getc_function;
extern rl_voidfunc_t *rl_redisplay_function, *rl_deprep_term_function;
extern rl_vintfunc_t *rl_prep_term_function;
int rl_getc(FILE *stream);
int rl_stuff_char(int key);
int rl_read_key(void);

/* The prompt. What stands between these two marks takes no column. */
#define RL_PROMPT_START_IGNORE '\001'
#define RL_PROMPT_END_IGNORE '\002'
extern char *rl_prompt, *rl_display_prompt;
extern int rl_already_prompted, rl_erase_empty_line;
int rl_set_prompt(const char *prompt);
void rl_save_prompt(void);
void rl_restore_prompt(void);
#if defined(__GNUC__)
__attribute__((format(printf, 1, 2)))
#endif
int rl_message(const char *format, ...);
int rl_clear_message(void);

/* The display. */
void rl_redisplay(void);
int rl_forced_update_display(void);
int rl_on_new_line(void);
int rl_clear_visible_line(void);
int rl_crlf(void);
int rl_ding(void);

/* The terminal, and signals. */
extern int rl_catch_signals, rl_catch_sigwinch;
void rl_prep_terminal(int meta);
void rl_deprep_terminal(void);
void rl_get_screen_size(int *rows, int *columns);
void rl_set_screen_size(int rows, int columns);
void rl_reset_screen_size(void);
void rl_resize_terminal(void);
void rl_echo_signal_char(int number);
void rl_cleanup_after_signal(void);
void rl_reset_after_signal(void);
void rl_free_line_state(void);

/* Keys. A keymap only says whether a key comes after Esc. */
typedef struct _keymap_entry {
    char type;
    rl_command_func_t *function;
} KEYMAP_ENTRY;
#define KEYMAP_SIZE 257
typedef KEYMAP_ENTRY KEYMAP_ENTRY_ARRAY[KEYMAP_SIZE];
typedef KEYMAP_ENTRY *Keymap;
extern KEYMAP_ENTRY_ARRAY emacs_standard_keymap, emacs_meta_keymap;
extern rl_command_func_t *rl_last_func;
extern int rl_editing_mode;
int rl_bind_key(int key, rl_command_func_t *function);
int rl_bind_key_in_map(int key, rl_command_func_t *function, Keymap map);
int rl_bind_keyseq(const char *keys, rl_command_func_t *function);
int rl_add_defun(const char *name, rl_command_func_t *function, int key);
int rl_parse_and_bind(char *row);
int rl_variable_bind(const char *name, const char *value);
int rl_read_init_file(const char *name);
rl_command_func_t rl_insert, rl_newline, rl_complete, rl_possible_completions;

/* Completion. */
#define NO_MATCH 0
#define SINGLE_MATCH 1
#define MULT_MATCH 2
extern rl_completion_func_t *rl_attempted_completion_function;
extern rl_compentry_func_t *rl_completion_entry_function;
extern rl_compdisp_func_t *rl_completion_display_matches_hook;
extern rl_compignore_func_t *rl_ignore_some_completions_function;
extern rl_quote_func_t *rl_filename_quoting_function;
extern rl_dequote_func_t *rl_filename_dequoting_function;
extern rl_linebuf_func_t *rl_char_is_quoted_p;
extern rl_cpvfunc_t *rl_completion_word_break_hook;
extern const char *rl_basic_word_break_characters, *rl_completer_word_break_characters, *rl_basic_quote_characters;
extern const char *rl_completer_quote_characters, *rl_filename_quote_characters, *rl_special_prefixes;
extern int rl_attempted_completion_over, rl_completion_append_character, rl_completion_suppress_append;
extern int rl_completion_suppress_quote, rl_completion_quote_character, rl_completion_found_quote;
extern int rl_completion_query_items, rl_completion_type, rl_completion_invoking_key, rl_completion_mark_directories;
extern int rl_filename_completion_desired, rl_filename_quoting_desired, rl_ignore_completion_duplicates;
extern int rl_sort_completion_matches, rl_inhibit_completion, rl_complete_with_tilde_expansion;
char **rl_completion_matches(const char *text, rl_compentry_func_t *next);
char *rl_filename_completion_function(const char *text, int again);
int rl_complete_internal(int what);
void rl_display_match_list(char **list, int count, int longest);
char *tilde_expand(const char *text);
char *tilde_expand_word(const char *text);

#ifdef __cplusplus
}
#endif
#endif
