/* Completion by the program's functions. They see the line as line_look found it, and change rl_line_buffer. */
#include "internal.h"
#include <dirent.h>
#include <sys/stat.h>

rl_completion_func_t *rl_attempted_completion_function;
rl_compentry_func_t *rl_completion_entry_function;
rl_compignore_func_t *rl_ignore_some_completions_function;
rl_compdisp_func_t *rl_completion_display_matches_hook;
rl_cpvfunc_t *rl_completion_word_break_hook;
rl_quote_func_t *rl_filename_quoting_function;
rl_dequote_func_t *rl_filename_dequoting_function;
rl_linebuf_func_t *rl_char_is_quoted_p;
const char *rl_basic_word_break_characters = " \t\n\"\\'`@$><=;|&{(", *rl_completer_word_break_characters;
const char *rl_basic_quote_characters = "\"'", *rl_completer_quote_characters, *rl_filename_quote_characters;
const char *rl_special_prefixes;
int rl_attempted_completion_over, rl_completion_append_character = ' ', rl_completion_suppress_append;
int rl_completion_suppress_quote, rl_completion_quote_character, rl_completion_found_quote;
int rl_completion_query_items = 100, rl_completion_type, rl_completion_invoking_key, rl_completion_mark_directories = 1;
int rl_filename_completion_desired, rl_filename_quoting_desired = 1, rl_ignore_completion_duplicates = 1;
int rl_sort_completion_matches = 1, rl_inhibit_completion, rl_complete_with_tilde_expansion;

/* ---- candidates ---- */

/* What all words begin with, in whole characters. */
static char *common_prefix(char **words)
{
    size_t length = strlen(words[0]);
    for (size_t i = 1; words[i] != NULL; i++) {
        size_t same = 0;
        while (same < length && words[i][same] == words[0][same]) same++;
        length = same;
    }
    while (length > 0 && (words[0][length] & 0xC0) == 0x80) length--;
    return copy_of(words[0], length);
}

/* All words that a function answers, after what they begin with; or NULL. */
char **rl_completion_matches(const char *text, rl_compentry_func_t *next)
{
    char **list = NULL, *word;
    size_t count = 0, size = 0;
    while ((word = next(text, (int)count)) != NULL) {
        if (count + 3 > size) {
            size = 2 * size + 16;
            list = allocate(list, size * sizeof *list);
        }
        list[++count] = word;
        list[count + 1] = NULL;
    }
    if (list != NULL) list[0] = common_prefix(list + 1);
    return list;
}

char *tilde_expand(const char *text)
{
    const char *home = getenv("HOME");
    struct bytes path = {0};
    if (text[0] != '~' || (text[1] != '/' && text[1] != 0) || home == NULL) return copy_of(text, strlen(text));
    bytes_add_text(&path, home);
    bytes_add_text(&path, text + 1);
    return path.at;
}

char *tilde_expand_word(const char *text)
{
    return tilde_expand(text);
}

static DIR *open_folder(const char *path)
{
    char *place = tilde_expand(path[0] != 0 ? path : "./");
    DIR *folder = opendir(place);
    free(place);
    return folder;
}

char *rl_filename_completion_function(const char *text, int again)
{
    static DIR *folder;
    static char *path, *name;
    struct dirent *entry;
    if (!again) {
        const char *slash = strrchr(text, '/');
        size_t front = slash != NULL ? (size_t)(slash + 1 - text) : 0;
        free(path);
        free(name);
        if (folder != NULL) closedir(folder);
        path = copy_of(text, front);
        name = copy_of(text + front, strlen(text + front));
        folder = open_folder(path);
        rl_filename_completion_desired = 1;
    }
    while (folder != NULL && (entry = readdir(folder)) != NULL) {
        struct bytes found = {0};
        if (strcmp(entry->d_name, ".") == 0 || strcmp(entry->d_name, "..") == 0) continue;
        if (strncmp(entry->d_name, name, strlen(name)) != 0) continue;
        bytes_add_text(&found, path);
        bytes_add_text(&found, entry->d_name);
        return found.at;
    }
    if (folder != NULL) closedir(folder);
    folder = NULL;
    return NULL;
}

static int order(const void *one, const void *other)
{
    return strcoll(*(char *const *)one, *(char *const *)other);
}

/* Sorts the candidates, frees those that stand twice, and answers their number. */
static int tidy(char **list)
{
    size_t count = 0, kept = 0;
    while (list[count + 1] != NULL) count++;
    if (count == 0) return 1; /* a sole candidate stands alone */
    if (rl_sort_completion_matches) qsort(list + 1, count, sizeof *list, order);
    for (size_t i = 1; i <= count; i++) {
        if (rl_ignore_completion_duplicates && kept > 0 && strcmp(list[kept], list[i]) == 0) free(list[i]);
        else list[++kept] = list[i];
    }
    list[kept + 1] = NULL;
    return (int)kept;
}

static void free_list(char **list)
{
    if (list == NULL) return;
    for (size_t i = 0; list[i] != NULL; i++) free(list[i]);
    free(list);
}

/* ---- the word before the cursor ---- */

/* The characters that separate words. The program's hook may also move rl_point to the word's beginning. */
static const char *word_breaks(void)
{
    const char *breaks = rl_completion_word_break_hook != NULL ? rl_completion_word_break_hook() : NULL;
    if (breaks == NULL) breaks = rl_completer_word_break_characters;
    return breaks != NULL ? breaks : rl_basic_word_break_characters;
}

/* The quote that is open at a place, or 0, and where its text begins. */
static int open_quote(int end, int *start, bool *is_any)
{
    int quote = 0;
    *is_any = false;
    for (int i = 0; i < end && rl_completer_quote_characters != NULL; i++) {
        char byte = rl_line_buffer[i];
        if (byte == '\\' && quote != '\'') {
            i++;
            *is_any = true;
        } else if (quote != 0) {
            if (quote == byte) quote = 0;
        } else if (byte != 0 && strchr(rl_completer_quote_characters, byte) != NULL) {
            quote = byte;
            *start = i + 1;
            *is_any = true;
        }
    }
    return quote;
}

/* Where the word before the cursor begins, and the quote that is open there. */
static int word_start(int *quote)
{
    int end = rl_point, start;
    const char *breaks = word_breaks();
    bool is_any_quote;
    start = rl_point;
    rl_point = end;
    *quote = 0;
    if (start != end) return start;
    *quote = open_quote(end, &start, &is_any_quote);
    if (*quote != 0) return start;
    for (start = end; start > 0; start--) {
        char byte = rl_line_buffer[start - 1];
        if (byte == 0 || strchr(breaks, byte) == NULL) continue;
        if (rl_char_is_quoted_p != NULL && is_any_quote && rl_char_is_quoted_p(rl_line_buffer, start - 1)) continue;
        return start - (rl_special_prefixes != NULL && strchr(rl_special_prefixes, byte) != NULL);
    }
    return 0;
}

/* ---- the list below the line ---- */

/* What is listed of a candidate: a file's name without its folder. */
static const char *listed(const char *word)
{
    const char *slash = rl_filename_completion_desired ? strrchr(word, '/') : NULL;
    return slash != NULL && slash[1] != 0 ? slash + 1 : word;
}

static int longest_of(char **list, int count)
{
    int longest = 0;
    for (int i = 1; i <= count; i++)
        if ((int)text_columns(listed(list[i])) > longest) longest = (int)text_columns(listed(list[i]));
    return longest;
}

/* Adds a text and blanks up to a width. */
static void add_cell(struct bytes *row, const char *text, size_t width)
{
    bytes_add_text(row, text);
    for (size_t used = text_columns(text); used < width; used++) bytes_add_text(row, " ");
}

/* In columns, which are read downwards. The last column of the screen stays free. */
void rl_display_match_list(char **list, int count, int longest)
{
    int columns, across, rows;
    size_t width;
    struct bytes text = {0};
    rl_get_screen_size(NULL, &columns);
    if (longest < longest_of(list, count)) longest = longest_of(list, count);
    width = (size_t)longest + 2;
    across = columns / (int)width;
    if (across > 1 && across * (int)width == columns) across--;
    if (across < 1) across = 1;
    rows = (count + across - 1) / across;
    for (int row = 0; row < rows; row++) {
        for (int i = row + 1; i <= count; i += rows) add_cell(&text, listed(list[i]), i + rows <= count ? width : 0);
        bytes_add_text(&text, "\r\n");
    }
    terminal_send(text.at, text.length);
    free(text.at);
}

/* Whether the user wants to see so many. */
static bool is_wanted(int count)
{
    char question[80];
    int key;
    if (rl_completion_query_items <= 0 || count < rl_completion_query_items) return true;
    snprintf(question, sizeof question, "Display all %d possibilities? (y or n)", count);
    terminal_send_text(question);
    do key = next_key();
    while (key != EOF && (key == 0 || strchr("yYnN \177\007", key) == NULL));
    rl_crlf();
    return key == 'y' || key == 'Y' || key == ' ';
}

/* Shows the candidates below the line, and the line below them. A program's hook writes its own row breaks. */
static void show_list(char **list, int count)
{
    line_leave();
    if (rl_completion_display_matches_hook != NULL) {
        rl_completion_display_matches_hook(list, count, longest_of(list, count));
    } else {
        rl_crlf();
        if (is_wanted(count)) rl_display_match_list(list, count, longest_of(list, count));
    }
    if (!line_is_drawn) line_redraw(true);
}

/* ---- the line ---- */

static bool is_folder(const char *name)
{
    struct stat found;
    char *path = tilde_expand(name);
    bool answer = stat(path, &found) == 0 && S_ISDIR(found.st_mode);
    free(path);
    return answer;
}

/* Adds what stands after a sole candidate: the quote's end, and a slash or a space. */
static void append(const char *word, int quote)
{
    char more[3] = "";
    int count = 0;
    bool folder = rl_filename_completion_desired && rl_completion_mark_directories && is_folder(word);
    bool has_quote = quote != 0 && !rl_completion_suppress_quote;
    bool has_more = rl_completion_append_character != 0 && !rl_completion_suppress_append;
    int next = (unsigned char)rl_line_buffer[rl_point];
    if (folder && word[strlen(word) - 1] != '/') more[count++] = '/';
    if (!folder && has_quote && next != quote) more[count++] = (char)quote;
    if (!folder && has_more && next != rl_completion_append_character) more[count++] = (char)rl_completion_append_character;
    more[count] = 0;
    rl_insert_text(more);
}

/* Puts a text in the word's place. If it begins with the word, only the rest goes in. */
static void put_word(int start, const char *text)
{
    size_t length = (size_t)(rl_point - start);
    if (strncmp(rl_line_buffer + start, text, length) == 0) {
        rl_insert_text(text + length);
        return;
    }
    rl_delete_text(start, rl_point);
    rl_point = start;
    rl_insert_text(text);
}

/* The text for the line, which the caller frees: what all candidates begin with, or a sole file's name with quotes if need be. */
static char *text_for_line(const char *word, bool is_sole, int quote)
{
    char mark[2] = {(char)quote, 0}, *text = copy_of(word, strlen(word)), *quoted;
    bool needs_quotes = is_sole && rl_filename_completion_desired && rl_filename_quoting_desired &&
                        rl_filename_quoting_function != NULL && rl_filename_quote_characters != NULL &&
                        strpbrk(text, rl_filename_quote_characters) != NULL;
    if (!needs_quotes) return text;
    quoted = rl_filename_quoting_function(text, SINGLE_MATCH, mark);
    if (quoted != text) free(text);
    return quoted;
}

/* Sets what the program's functions read and may change. */
static void reset_settings(int what, int quote)
{
    rl_completion_type = what;
    rl_completion_append_character = ' ';
    rl_completion_quote_character = quote;
    rl_completion_found_quote = quote != 0;
    rl_attempted_completion_over = rl_completion_suppress_append = 0;
    rl_completion_suppress_quote = rl_filename_completion_desired = 0;
    rl_filename_quoting_desired = 1;
}

/* The candidates for a word, or NULL. */
static char **candidates(const char *word, int start, int end)
{
    char **list = NULL;
    rl_compentry_func_t *next = rl_completion_entry_function;
    if (next == NULL) next = rl_filename_completion_function;
    if (rl_attempted_completion_function != NULL) {
        list = rl_attempted_completion_function(word, start, end);
        if (list != NULL || rl_attempted_completion_over) return list;
    }
    list = rl_completion_matches(word, next);
    if (list != NULL && rl_ignore_some_completions_function != NULL) rl_ignore_some_completions_function(list);
    return list;
}

/* Completes the word before the cursor. `what` is a Tab, `!` to list several candidates too, `?` to list only. */
int rl_complete_internal(int what)
{
    int quote, start = word_start(&quote), count;
    char *word = copy_of(rl_line_buffer + start, (size_t)(rl_point - start)), **list;
    reset_settings(what, quote);
    RL_SETSTATE(RL_STATE_COMPLETING);
    list = candidates(word, start, rl_point);
    RL_UNSETSTATE(RL_STATE_COMPLETING);
    free(word);
    count = list != NULL ? tidy(list) : 0;
    if (count == 0 || (what == '\t' && count > 1)) rl_ding();
    if (count > 0 && what == '?') {
        show_list(list, count);
    } else if (count > 0) {
        char *text = text_for_line(list[0], count == 1, quote);
        if (text[0] != 0) put_word(start, text);
        if (text[0] != 0 && count == 1) append(list[0], quote);
        free(text);
        if (count > 1 && what == '!') {
            line_absorb();
            show_list(list, count);
        }
    }
    free_list(list);
    return 0;
}

/* Pressed twice it lists the candidates, unless the first press changed the line. */
int rl_complete(int count, int key)
{
    static bool has_changed;
    bool is_second = rl_last_func == rl_complete && !has_changed;
    char *old;
    (void)count;
    rl_completion_invoking_key = key;
    if (rl_inhibit_completion) return rl_insert(1, key);
    old = copy_of(rl_line_buffer, (size_t)rl_end);
    rl_complete_internal(is_second ? '?' : shows_all ? '!' : '\t');
    has_changed = strlen(old) != (size_t)rl_end || memcmp(old, rl_line_buffer, (size_t)rl_end) != 0;
    free(old);
    return 0;
}

int rl_possible_completions(int count, int key)
{
    (void)count, (void)key;
    return rl_complete_internal('?');
}
