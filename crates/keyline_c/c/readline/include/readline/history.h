/* The history of libkeyline-readline: a list of lines, and its files. The names and types are those of readline's interface,
 * so programs compile against either. What a call does stands in keyline-readline(3). */
#ifndef KEYLINE_READLINE_HISTORY_H
#define KEYLINE_READLINE_HISTORY_H
#include <time.h>

#ifdef __cplusplus
extern "C" {
#endif

typedef void *histdata_t;

/* A line, the time at which it was added as a text (`#` and seconds, or NULL), and what the program keeps with it. */
typedef struct _hist_entry {
    char *line;
    char *timestamp;
    histdata_t data;
} HIST_ENTRY;

/* The whole history. `size` is the number of places in `entries`. */
typedef struct _hist_state {
    HIST_ENTRY **entries;
    int offset;
    int length;
    int size;
    int flags;
} HISTORY_STATE;

/* A flag of a history with a largest length. */
#define HS_STIFLED 0x01

/* The list. Its entries have the numbers history_base, history_base + 1, .. */
extern int history_base, history_length, history_max_entries;
void using_history(void);
void add_history(const char *line);
void add_history_time(const char *time);
void clear_history(void);
void stifle_history(int most);
int unstifle_history(void);
int history_is_stifled(void);
HIST_ENTRY *remove_history(int place);
HIST_ENTRY *replace_history_entry(int place, const char *line, histdata_t data);
histdata_t free_history_entry(HIST_ENTRY *entry);
HISTORY_STATE *history_get_history_state(void);
void history_set_history_state(HISTORY_STATE *state);

/* Reading it. */
HIST_ENTRY **history_list(void);
HIST_ENTRY *history_get(int number);
time_t history_get_time(HIST_ENTRY *entry);
int history_total_bytes(void);

/* A place in it, for programs that walk through it. */
int where_history(void);
int history_set_pos(int place);
HIST_ENTRY *current_history(void);
HIST_ENTRY *previous_history(void);
HIST_ENTRY *next_history(void);
int history_search(const char *text, int direction);
int history_search_prefix(const char *text, int direction);

/* Files, a line in each row. They answer 0, or an errno. Without a name they mean ~/.history. */
extern int history_write_timestamps;
extern char history_comment_char;
int read_history(const char *name);
int read_history_range(const char *name, int from, int to);
int write_history(const char *name);
int append_history(int count, const char *name);
int history_truncate_file(const char *name, int rows);

/* Expands nothing: the result is a copy of the line, and the answer 0. */
int history_expand(const char *line, char **result);

#ifdef __cplusplus
}
#endif
#endif
