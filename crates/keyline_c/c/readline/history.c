/* The history's list. It has any number of entries; keyline_line is handed the newest of them as a line begins. */
#include "internal.h"

static HIST_ENTRY **list;     /* with a null pointer after the last entry */
static int size, limit = -1;  /* the places in it; the most entries, if that isn't negative */
static int offset;            /* the place of programs that walk through it */

int history_base = 1, history_length, history_max_entries;

/* ---- for keyline_line ---- */

/* An entry as a row: without newlines, and UTF-8. */
static void add_row(struct bytes *text, const char *line)
{
    struct bytes row = {0}, utf8 = {0};
    bytes_add_utf8(&utf8, line, strlen(line));
    tabs_hide(&row, utf8.at, utf8.length);
    for (size_t i = 0; i < row.length; i++) {
        if (row.at[i] == '\n') bytes_add_text(text, "\\n");
        else if (row.at[i] == '\\') bytes_add_text(text, "\\\\");
        else bytes_add(text, row.at + i, 1);
    }
    bytes_add_text(text, "\n");
    free(row.at);
    free(utf8.at);
}

void history_add_text(struct bytes *text)
{
    int first = history_length > MOST_ENTRIES ? history_length - MOST_ENTRIES : 0;
    bytes_add_text(text, "#V2\n");
    for (int i = first; i < history_length; i++) add_row(text, list[i]->line);
}

/* ---- changes ---- */

static char time_mark(void)
{
    return history_comment_char != 0 ? history_comment_char : '#';
}

static HIST_ENTRY *entry_of(const char *line, const char *timestamp, histdata_t data)
{
    HIST_ENTRY *entry = allocate(NULL, sizeof *entry);
    *entry = (HIST_ENTRY){copy_of(line, strlen(line)), copy_of(timestamp, strlen(timestamp)), data};
    return entry;
}

void using_history(void)
{
    offset = history_length;
}

static void drop_oldest(void)
{
    free_history_entry(list[0]);
    memmove(list, list + 1, (size_t)history_length * sizeof *list);
    history_length--;
    history_base++;
}

void add_history(const char *line)
{
    char now[32];
    if (limit == 0) return;
    snprintf(now, sizeof now, "%c%lld", time_mark(), (long long)time(NULL));
    if (limit > 0 && history_length == limit) drop_oldest();
    if (history_length + 2 > size) {
        size = 2 * size + 64;
        list = allocate(list, (size_t)size * sizeof *list);
    }
    list[history_length++] = entry_of(line, now, NULL);
    list[history_length] = NULL;
}

void add_history_time(const char *time)
{
    HIST_ENTRY *last;
    if (history_length == 0 || time == NULL) return;
    last = list[history_length - 1];
    free(last->timestamp);
    last->timestamp = copy_of(time, strlen(time));
}

/* Answers what the program keeps with the entry, which is the program's to free. */
histdata_t free_history_entry(HIST_ENTRY *entry)
{
    histdata_t data;
    if (entry == NULL) return NULL;
    data = entry->data;
    free(entry->line);
    free(entry->timestamp);
    free(entry);
    return data;
}

HIST_ENTRY *remove_history(int place)
{
    HIST_ENTRY *entry;
    if (place < 0 || place >= history_length) return NULL;
    entry = list[place];
    memmove(list + place, list + place + 1, (size_t)(history_length - place) * sizeof *list);
    history_length--;
    return entry;
}

HIST_ENTRY *replace_history_entry(int place, const char *line, histdata_t data)
{
    HIST_ENTRY *old;
    if (place < 0 || place >= history_length) return NULL;
    old = list[place];
    list[place] = entry_of(line, old->timestamp != NULL ? old->timestamp : "", data);
    return old;
}

void clear_history(void)
{
    while (history_length > 0) free_history_entry(list[--history_length]);
    if (list != NULL) list[0] = NULL;
    offset = 0;
    history_base = 1;
}

void stifle_history(int most)
{
    limit = history_max_entries = most < 0 ? 0 : most;
    while (history_length > limit) drop_oldest();
}

/* Answers the old limit; negative if there was none. */
int unstifle_history(void)
{
    int old = limit;
    limit = -1;
    return old >= 0 ? old : -history_max_entries;
}

int history_is_stifled(void)
{
    return limit >= 0;
}

HISTORY_STATE *history_get_history_state(void)
{
    HISTORY_STATE *state = allocate(NULL, sizeof *state);
    *state = (HISTORY_STATE){list, offset, history_length, size, limit >= 0 ? HS_STIFLED : 0};
    return state;
}

void history_set_history_state(HISTORY_STATE *state)
{
    list = state->entries;
    offset = state->offset;
    history_length = state->length;
    size = state->size;
    if (state->flags & HS_STIFLED) limit = history_max_entries;
}

/* ---- reading it ---- */

HIST_ENTRY **history_list(void)
{
    return list;
}

HIST_ENTRY *history_get(int number)
{
    int place = number - history_base;
    return place >= 0 && place < history_length ? list[place] : NULL;
}

time_t history_get_time(HIST_ENTRY *entry)
{
    if (entry == NULL || entry->timestamp == NULL || entry->timestamp[0] != time_mark()) return 0;
    return (time_t)atoll(entry->timestamp + 1);
}

int history_total_bytes(void)
{
    size_t total = 0;
    for (int i = 0; i < history_length; i++) total += strlen(list[i]->line);
    return (int)total;
}

int where_history(void)
{
    return offset;
}

int history_set_pos(int place)
{
    if (place < 0 || place > history_length) return 0;
    offset = place;
    return 1;
}

HIST_ENTRY *current_history(void)
{
    return offset < history_length ? list[offset] : NULL;
}

HIST_ENTRY *previous_history(void)
{
    return offset > 0 ? list[--offset] : NULL;
}

HIST_ENTRY *next_history(void)
{
    return offset < history_length ? list[++offset] : NULL;
}

/* Looks from the program's place on, backwards if the direction is negative. Answers where the text stands in the entry. */
static int search(const char *text, int direction, bool is_prefix)
{
    int step = direction < 0 ? -1 : 1;
    for (int i = offset < history_length ? offset : history_length - 1; i >= 0 && i < history_length; i += step) {
        const char *at = strstr(list[i]->line, text);
        if (at == NULL || (is_prefix && strncmp(list[i]->line, text, strlen(text)) != 0)) continue;
        offset = i;
        return is_prefix ? 0 : (int)(at - list[i]->line);
    }
    return -1;
}

int history_search(const char *text, int direction)
{
    return search(text, direction, false);
}

int history_search_prefix(const char *text, int direction)
{
    return search(text, direction, true);
}

int history_expand(const char *line, char **result)
{
    *result = copy_of(line, strlen(line));
    return 0;
}
