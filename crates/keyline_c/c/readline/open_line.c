/* The line that is typed. keyline_line keeps nothing between two calls, so all keys since the line began are kept here. What
 * else is wanted is another call: the cursor's place, the line drawn on other rows, fewer keys for the same line. */
#include "internal.h"

/* Typed bytes after which the keys are replaced by fewer; and how far from the line's end the cursor may be then. */
enum { MANY_TYPED = 8192, NEAR_END = 100 };

/* The characters of which one stands for the cursor: U+E000 and those after it, for private use. */
enum { MARKS = 60 };

bool line_is_drawn;

static struct bytes keys;         /* typed since the line began */
static struct bytes hidden;       /* the same as the call is handed them, if they have tabs */
static bool are_hidden;
static struct bytes rest;         /* keys after the line that has ended */
static struct bytes history;      /* its text, for the call */
static struct bytes kills;        /* the kill ring */
static size_t ends[KEYLINE_SLOTS], new_ends[KEYLINE_SLOTS];
static struct keyline_options options;
static struct keyline_given given = {.ends = ends};
static struct keyline_room room = {.ends = new_ends};
static struct keyline_step step;  /* of the last call */
static size_t sent;               /* display bytes of the line that the display has */
static size_t typed;              /* key bytes of the line that aren't pasted */
static struct prompt prompt;
static char *next_prompt;         /* the prompt from the next whole drawing on */
static struct bytes buffer;       /* the memory of rl_line_buffer */
static struct bytes known;        /* the line's text when it was last looked at, */
static size_t known_point;        /* its cursor, */
static bool is_known;             /* and whether no key came since */

static struct keyline_text text_of(const struct bytes *b)
{
    return (struct keyline_text){(const uint8_t *)b->at, b->length};
}

static void fit(struct keyline_space *space, size_t size)
{
    if (size <= space->size) return;
    space->size = 2 * size + 4096;
    space->bytes = allocate(space->bytes, space->size);
}

/* Sets the keys of a call: the line's, and these behind them. */
static void hand_keys(const char *more, size_t count)
{
    bytes_reserve(&keys, keys.length + count + 1);
    if (count > 0) memcpy(keys.at + keys.length, more, count);
    given.keys = (struct keyline_text){(const uint8_t *)keys.at, keys.length + count};
    are_hidden = tabs_are_in(keys.at, keys.length + count);
    if (!are_hidden) return;
    bytes_clear(&hidden);
    tabs_hide_in_keys(&hidden, keys.at, keys.length + count);
    given.keys = text_of(&hidden);
}

/* Calls with the line's keys and these behind them, of which nothing is kept. */
static uint8_t call(const char *more, size_t count, size_t already_sent)
{
    hand_keys(more, count);
    options.sent = already_sent;
    for (;;) {
        keyline_line(&options, &given, &room, &step);
        if (step.status == KEYLINE_MEMORY) end_without_memory();
        if (step.status != KEYLINE_ROOM) return step.status;
        fit(&room.display, step.display);
        fit(&room.line, step.line);
        fit(&room.history, step.history);
        fit(&room.kills, step.kills);
    }
}

/* Each buffer gets its text, from the first call on. */
static void make_room(void)
{
    struct keyline_space *spaces[] = {&room.display, &room.line, &room.history, &room.kills};
    for (size_t it = 0; it < sizeof spaces / sizeof *spaces; it++) fit(spaces[it], 1);
}

static const char *display(void)
{
    return (const char *)room.display.bytes;
}

/* ---- drawing ---- */

/* Draws from the last whole drawing on. What stands before it in the call's bytes has no part in what is seen. */
static void draw_last(void)
{
    const char *at = display(), *end = at + step.display, *next;
    while (at < end && (next = find_bytes(at + 1, (size_t)(end - at - 1), WHOLE)) != NULL) at = next;
    display_draw(&prompt, at, (size_t)(end - at));
    sent = step.sent;
    line_is_drawn = true;
}

/* Whether these are several whole drawings, of which the last is enough, and none clears the screen. */
static bool are_many_drawings(void)
{
    const char *end = display() + step.display, *first = find_bytes(display(), step.display, WHOLE);
    if (first == NULL || find_bytes(display(), step.display, "\033[H") != NULL) return false;
    return find_bytes(first + 1, (size_t)(end - first - 1), WHOLE) != NULL;
}

/* The row break that ends a line is left out after a blank row; and at Ctrl-D, if pastes aren't marked. So does readline. */
static void end_row(void)
{
    if (step.status == KEYLINE_END && !pastes_are_marked) return;
    if (step.status != KEYLINE_LINE || !display_is_in_blank_row()) display_draw(&prompt, "\r\n", 2);
}

/* Draws what the last call gave. */
static void draw_step(void)
{
    bool has_ended = step.status != KEYLINE_MORE && step.display >= 2;
    if (has_ended) step.display -= 2;
    if (!line_is_drawn) display_begin();
    if (!line_is_drawn || are_many_drawings()) {
        display_to_top();
        draw_last();
    } else {
        display_draw(&prompt, display(), step.display);
        sent = step.sent;
    }
    if (has_ended) end_row();
}

/* ---- beginning and ending ---- */

/* Learns how the prompt is drawn at this width. */
static void learn_prompt(void)
{
    struct bytes all = keys;
    keys = (struct bytes){0};
    if (call(NULL, 0, 0) == KEYLINE_MORE) prompt_learn(&prompt, display(), step.display);
    free(keys.at);
    keys = all;
}

static void take_next_prompt(void)
{
    if (next_prompt != NULL) prompt_set(&prompt, next_prompt);
    free(next_prompt);
    next_prompt = NULL;
    given.prompt = text_of(&prompt.seen);
}

/* Begins the keys anew. */
static void begin(void)
{
    bytes_clear(&keys);
    sent = typed = 0;
    is_known = false;
    take_next_prompt();
    learn_prompt();
}

void line_begin(const char *text)
{
    line_set_prompt(text);
    bytes_clear(&history);
    history_add_text(&history);
    given.history = text_of(&history);
    options.entries = MOST_ENTRIES;
    make_room();
    options.columns = terminal_columns();
    options.mode = rl_editing_mode == 0 ? KEYLINE_VI : KEYLINE_EMACS;
    display_begin();
    line_is_drawn = false;
    begin();
    bytes_clear(&known);
    known_point = 0;
    is_known = true;
    line_set("", 0, 0);
    if (rl_already_prompted) return;
    terminal_send(prompt.before.at, prompt.before.length);
    if (!terminal_is_drawn_on()) terminal_send(prompt.seen.at, prompt.seen.length);
}

void line_set_prompt(const char *text)
{
    char *copy = copy_of(text, strlen(text));
    free(next_prompt);
    next_prompt = copy;
}

/* Keeps the kill ring, which the next line begins with. */
static void keep_ring(void)
{
    bytes_clear(&kills);
    bytes_add(&kills, (const char *)room.kills.bytes, step.kills);
    memcpy(ends, new_ends, step.slots * sizeof *ends);
    given.kills = text_of(&kills);
    given.slots = step.slots;
    options.place = step.place;
}

char *line_accept(void)
{
    if (call("\r", 1, sent) != KEYLINE_LINE) return NULL;
    keep_ring();
    return line_text();
}

char *line_text(void)
{
    struct bytes text = {0};
    tabs_restore(&text, (const char *)room.line.bytes, step.line);
    bytes_add(&text, NULL, 0);
    return text.at;
}

size_t line_rest(const char **after)
{
    const struct bytes *all = are_hidden ? &hidden : &keys;
    bytes_clear(&rest);
    if (are_hidden) tabs_restore_in_keys(&rest, all->at + step.keys, all->length - step.keys);
    else bytes_add(&rest, all->at + step.keys, all->length - step.keys);
    *after = rest.at;
    return rest.length;
}

/* ---- looking at the line ---- */

void line_set(const char *text, size_t length, size_t point)
{
    char *copy = copy_of(text, length); /* the text may be rl_line_buffer */
    bytes_clear(&buffer);
    bytes_add(&buffer, copy, length);
    free(copy);
    rl_line_buffer = buffer.at;
    rl_end = (int)length;
    rl_point = (int)point;
}

/* Learns text and cursor from a call in which this character and Enter are typed: it then stands where the cursor is. */
static bool look_by(const char *mark, bool *is_taken)
{
    char more[] = {mark[0], mark[1], mark[2], '\r'};
    const char *line, *at, *behind;
    *is_taken = call(more, sizeof more, sent) == KEYLINE_LINE;
    line = (const char *)room.line.bytes;
    at = *is_taken ? find_bytes(line, step.line, mark) : NULL;
    if (at == NULL) *is_taken = false;
    if (at == NULL) return false;
    behind = at + 3;
    if (find_bytes(behind, (size_t)(line + step.line - behind), mark) != NULL) return false;
    bytes_clear(&known);
    tabs_restore(&known, line, (size_t)(at - line));
    known_point = known.length;
    tabs_restore(&known, behind, (size_t)(line + step.line - behind));
    return true;
}

bool line_look(void)
{
    bool is_taken = true;
    if (is_known) return true;
    for (int i = 0; is_taken && !is_known && i < MARKS; i++) {
        const char mark[] = {'\xEE', '\x80', (char)(0x80 + i), 0};
        is_known = look_by(mark, &is_taken);
    }
    if (is_known) line_set(known.at, known.length, known_point);
    return is_known;
}

/* ---- keys that give a text ---- */

/* The keys of a paste. The mark that would end it is left out of the text. */
static void add_paste(struct bytes *b, const char *text, size_t length)
{
    const char *stop;
    if (length == 0) return;
    bytes_add_text(b, PASTE);
    while ((stop = find_bytes(text, length, PASTED)) != NULL) {
        bytes_add(b, text, (size_t)(stop - text));
        length -= (size_t)(stop - text) + strlen(PASTED);
        text = stop + strlen(PASTED);
    }
    bytes_add(b, text, length);
    bytes_add_text(b, PASTED);
}

/* Keys that give an empty line this text and cursor: first what stands behind the cursor, and before it the rest. */
static void add_line(struct bytes *b, const char *text, size_t length, size_t point)
{
    add_paste(b, text + point, length - point);
    for (size_t i = point; i < length; i++)
        if ((text[i] & 0xC0) != 0x80) bytes_add_text(b, "\033[D");
    add_paste(b, text, point);
}

/* Replaces many typed keys by a paste that gives the same line and costs some hundredth. The display shows one drawing of
 * prompt and line after either, so nothing is sent. What undo and Vi's `.` know is lost. */
static void shorten(void)
{
    struct bytes few = {0}, all = keys;
    if (typed <= MANY_TYPED || !line_look() || known.length - known_point > NEAR_END) return;
    add_line(&few, known.at, known.length, known_point);
    keys = few;
    if (call(NULL, 0, 0) == KEYLINE_MORE) {
        sent = step.sent;
        typed = 0;
        free(all.at);
    } else {
        free(keys.at);
        keys = all;
    }
}

/* ---- keys ---- */

/* How many bytes at the front are a whole paste, or a byte of a key. */
static size_t piece_length(const char *at, size_t count)
{
    const char *end = count > 6 && memcmp(at, PASTE, 6) == 0 ? find_bytes(at, count, PASTED) : NULL;
    return end != NULL ? (size_t)(end - at) + 6 : 1;
}

/* How many bytes at the end of the keys begin a character that isn't whole. */
static size_t begun_character(void)
{
    size_t count = 0, whole;
    unsigned char lead;
    while (count < 3 && count < keys.length && (keys.at[keys.length - 1 - count] & 0xC0) == 0x80) count++;
    if (count == keys.length) return 0;
    lead = (unsigned char)keys.at[keys.length - 1 - count];
    whole = lead >= 0xF0 ? 4 : lead >= 0xE0 ? 3 : lead >= 0xC0 ? 2 : 1;
    return count + 1 < whole ? count + 1 : 0;
}

/* Leaves out a piece that the call rejects, and what there is of a character before it. */
static uint8_t reject(const char *at, size_t count)
{
    size_t cut = begun_character();
    bool is_ascii = (*at & 0x80) == 0;
    rl_ding();
    keys.length -= cut;
    return cut > 0 && is_ascii ? line_feed(at, count) : KEYLINE_MORE;
}

/* Takes keys piece by piece, since one among them is rejected: bytes that aren't UTF-8, Ctrl-C as a key, a paste that no
 * command expects. */
static uint8_t feed_pieces(const char *at, size_t count)
{
    uint8_t status = KEYLINE_MORE;
    size_t length = piece_length(at, count);
    if (count == length) return reject(at, count);
    while (count > 0 && status == KEYLINE_MORE) {
        length = piece_length(at, count);
        status = line_feed(at, length);
        at += length;
        count -= length;
    }
    if (status != KEYLINE_MORE) bytes_add(&keys, at, count);
    return status;
}

uint8_t line_feed(const char *more, size_t count)
{
    uint8_t status = call(more, count, line_is_drawn ? sent : 0);
    if (status > KEYLINE_END) return feed_pieces(more, count);
    is_known = false;
    keys.length += count;
    keys.at[keys.length] = 0;
    if (find_bytes(more, count, PASTE) == NULL) typed += count;
    draw_step();
    if (status == KEYLINE_MORE) shorten();
    else keep_ring();
    return status;
}

bool line_waits_after_esc(void)
{
    return options.mode == KEYLINE_VI && keys.length > 0 && keys.at[keys.length - 1] == '\033';
}

/* A sequence without a name, which is a key that does nothing. */
void line_end_esc(void)
{
    line_feed("\033[99~", 5);
}

/* ---- what the program changes ---- */

/* Whether the new text is the old one with an insertion between the old cursor and the new. */
static bool is_insertion(const char *text, size_t length, size_t point)
{
    size_t old = known_point;
    return point > old && length - (point - old) == known.length && memcmp(text, known.at, old) == 0 &&
           memcmp(text + point, known.at + old, length - point) == 0;
}

/* Begins the line anew with this text and cursor. Undo doesn't know what was before. */
static void replace(const char *text, size_t length, size_t point)
{
    struct bytes few = {0};
    add_line(&few, text, length, point);
    if (line_is_drawn) display_to_top();
    else display_begin();
    begin();
    if (call(few.at, few.length, 0) == KEYLINE_MORE) {
        bytes_add(&keys, few.at, few.length);
        draw_last();
    } else {
        call(NULL, 0, 0);
        draw_last();
    }
    free(few.at);
    line_look();
}

void line_absorb(void)
{
    size_t length = (size_t)rl_end, point = (size_t)(rl_point < 0 ? 0 : rl_point > rl_end ? rl_end : rl_point);
    bool is_same = known.length == length && memcmp(known.at, rl_line_buffer, length) == 0 && point == known_point;
    char *text;
    if (is_same && next_prompt == NULL) return;
    if (is_same) {
        line_look();
        length = (size_t)rl_end;
        point = (size_t)rl_point;
    }
    text = copy_of(rl_line_buffer, length);
    if (is_known && next_prompt == NULL && is_insertion(text, length, point)) {
        struct bytes paste = {0};
        add_paste(&paste, text + known_point, point - known_point);
        line_feed(paste.at, paste.length);
        free(paste.at);
        line_look();
    } else {
        replace(text, length, point);
    }
    free(text);
}

/* ---- the drawing as a whole ---- */

/* The bytes since the line's beginning draw it on any rows that are blank. */
void line_redraw(bool here)
{
    if (next_prompt != NULL) {
        if (here) line_is_drawn = false;
        line_absorb();
        return;
    }
    if (here) display_begin();
    display_to_top();
    call(NULL, 0, 0);
    draw_last();
}

void line_resize(void)
{
    uint16_t old = options.columns;
    options.columns = terminal_columns();
    if (options.columns < old) display_narrow(options.columns);
    display_to_top();
    learn_prompt();
    line_redraw(true);
}

/* Enter's bytes move there, and then break the row. */
void line_leave(void)
{
    if (!line_is_drawn) return;
    if (call("\r", 1, sent) == KEYLINE_LINE && step.display >= 2) display_draw(&prompt, display(), step.display - 2);
    line_is_drawn = false;
}

void line_erase(void)
{
    display_to_top();
    if (terminal_is_drawn_on()) terminal_send_text(WHOLE);
    line_is_drawn = false;
}
