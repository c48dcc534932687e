/* Commands that keyline_line lacks, made of what it has: a text is put in, or the line and its prompt are replaced. And
 * commands that are its keys. */
#include "internal.h"

/* ---- keys as functions ---- */

int rl_insert(int count, int key)
{
    char text[2] = {(char)key, 0};
    while (count-- > 0) rl_insert_text(text);
    return 0;
}

static int by_key(const char *keys)
{
    feed_line(keys, strlen(keys));
    return 0;
}

int rl_newline(int count, int key)
{
    (void)count, (void)key;
    return by_key("\r");
}

int command_previous(int count, int key)
{
    (void)count, (void)key;
    return by_key("\033[A");
}

int command_next(int count, int key)
{
    (void)count, (void)key;
    return by_key("\033[B");
}

int command_line_start(int count, int key)
{
    (void)count, (void)key;
    return by_key("\033[H");
}

int command_line_end(int count, int key)
{
    (void)count, (void)key;
    return by_key("\033[F");
}

int command_clear_screen(int count, int key)
{
    (void)count, (void)key;
    return by_key("\014");
}

/* ---- insertions ---- */

/* The character that comes next, whatever it is. */
int command_quoted_insert(int count, int key)
{
    char text[8] = "";
    size_t length = 0;
    (void)count, (void)key;
    for (int byte; length < 4 && (byte = next_key()) != EOF;) {
        text[length++] = (char)byte;
        if (character_length(text, length) > 0 || byte < 0x80) break;
    }
    rl_insert_text(text);
    return 0;
}

/* The last word of the line before; pressed again, that of an older one in its place. */
int command_last_word(int count, int key)
{
    static int back, length;
    const char *line, *from, *to;
    char *word;
    (void)count, (void)key;
    if (rl_last_func == command_last_word) {
        int start = rl_point - length;
        rl_delete_text(start, rl_point);
        rl_point = start;
    } else {
        back = 0;
    }
    length = 0;
    if (back == history_length) return rl_ding();
    line = history_list()[history_length - ++back]->line;
    for (to = line + strlen(line); to > line && (to[-1] == ' ' || to[-1] == '\t'); to--);
    for (from = to; from > line && from[-1] != ' ' && from[-1] != '\t'; from--);
    word = copy_of(from, (size_t)(to - from));
    length = rl_insert_text(word);
    free(word);
    return 0;
}

/* ---- search by what the line begins with ---- */

static int prefix_search(int step)
{
    static int place, length;
    rl_command_func_t *last = rl_last_func;
    if (last != command_prefix_back && last != command_prefix_on) {
        place = history_length;
        length = rl_point;
    }
    for (int i = place + step; i >= 0 && i < history_length; i += step) {
        const char *line = history_list()[i]->line;
        if (strncmp(line, rl_line_buffer, (size_t)length) != 0 || strcmp(line, rl_line_buffer) == 0) continue;
        place = i;
        line_set(line, strlen(line), (size_t)length);
        return 0;
    }
    return rl_ding();
}

int command_prefix_back(int count, int key)
{
    (void)count, (void)key;
    return prefix_search(-1);
}

int command_prefix_on(int count, int key)
{
    (void)count, (void)key;
    return prefix_search(1);
}

/* ---- incremental search ---- */

struct search {
    struct bytes term, prompt;
    int step;  /* -1 or 1 */
    int place; /* of the entry that is shown */
    bool has_failed;
};

static void show_search(struct search *search)
{
    bytes_clear(&search->prompt);
    bytes_add_text(&search->prompt, search->has_failed ? "(failed " : "(");
    bytes_add_text(&search->prompt, search->step < 0 ? "reverse-i-search)`" : "i-search)`");
    bytes_add_text(&search->prompt, search->term.at);
    bytes_add_text(&search->prompt, "': ");
    line_set_prompt(search->prompt.at);
    rl_redisplay();
}

/* Looks for the term from an entry on, and makes the line the first that has it. */
static void find_term(struct search *search, int from)
{
    search->has_failed = search->term.length > 0;
    for (int i = from; search->has_failed && i >= 0 && i < history_length; i += search->step) {
        const char *line = history_list()[i]->line, *at = strstr(line, search->term.at);
        if (at == NULL) continue;
        search->has_failed = false;
        search->place = i;
        line_set(line, strlen(line), (size_t)(at - line));
    }
}

/* Where the last character of a text begins. */
static size_t last_character(const struct bytes *text)
{
    size_t place = text->length;
    while (place > 0 && (text->at[--place] & 0xC0) == 0x80);
    return place;
}

/* Takes a key of the search. False if it ends it. */
static bool search_by(struct search *search, int key)
{
    struct bytes *term = &search->term;
    bool is_again = key == CTRL('R') || key == CTRL('S');
    char byte = (char)key;
    if (key == EOF || (key < ' ' && !is_again && key != '\b')) return false;
    if (is_again) {
        search->step = key == CTRL('R') ? -1 : 1;
        find_term(search, search->place + (term->length > 0 ? search->step : 0));
        return true;
    }
    if (key == '\b' || key == '\177') {
        term->length = last_character(term);
        term->at[term->length] = 0;
    } else {
        size_t place;
        bytes_add(term, &byte, 1);
        place = last_character(term);
        if (character_length(term->at + place, term->length - place) == 0) return true;
    }
    find_term(search, search->place);
    return true;
}

/* Shows the newest line that has what is typed, and older ones by the same key. Ctrl-G restores the old line; another control
 * character takes the line that is shown, and acts on it. */
static int search(int step)
{
    struct search it = {.step = step, .place = step < 0 ? history_length - 1 : 0};
    char *old = copy_of(rl_line_buffer, (size_t)rl_end);
    int old_point = rl_point, key;
    bytes_clear(&it.term);
    do {
        show_search(&it);
        key = next_key();
    } while (search_by(&it, key));
    line_set_prompt(rl_prompt);
    if (key == CTRL('G')) line_set(old, strlen(old), (size_t)old_point);
    else if (key != EOF) read_again((char)key);
    free(it.term.at);
    free(it.prompt.at);
    free(old);
    return 0;
}

int command_search_back(int count, int key)
{
    (void)count, (void)key;
    return search(-1);
}

int command_search_on(int count, int key)
{
    (void)count, (void)key;
    return search(1);
}
