/* Calls of keyline.h at its limits: buffers of exactly the needed size, invalid arguments, and what is passed on from line
 * to line. It prints what failed, and then how many checks passed and how many failed. */
#include "../../crates/keyline_c/c/keyline.h"
#include <stdio.h>
#include <stdlib.h>
#include <string.h>

static int passed, failed;

static void hold(bool holds, const char *what)
{
    if (holds) passed += 1;
    else failed += 1, printf("FAILED: %s\n", what);
}

/* A call, with each buffer from its own malloc, so that a byte beyond it is detected. */
struct call {
    struct keyline_options options;
    struct keyline_given given;
    struct keyline_room room;
    struct keyline_step step;
    void *history, *kills, *ends; /* from an earlier line */
};

static struct keyline_text text(const char *bytes)
{
    return (struct keyline_text){(const uint8_t *)bytes, strlen(bytes)};
}

static struct keyline_space space(size_t size)
{
    return (struct keyline_space){malloc(size > 0 ? size : 1), size};
}

static struct call call(const char *keys)
{
    struct call c = {.options = {.columns = 80}, .given = {.keys = text(keys), .prompt = text("> ")}};
    c.room = (struct keyline_room){space(4096), space(4096), space(4096), space(4096), malloc(KEYLINE_SLOTS * sizeof(size_t))};
    return c;
}

static void drop(struct call *c)
{
    free(c->room.display.bytes), free(c->room.line.bytes), free(c->room.history.bytes), free(c->room.kills.bytes), free(c->room.ends);
    free(c->history), free(c->kills), free(c->ends);
}

static uint8_t made(struct call *c)
{
    keyline_line(&c->options, &c->given, &c->room, &c->step);
    return c->step.status;
}

/* The status of one call with these keys, after this change of the call. */
#define STATUS(what, keys, change, status) \
    do { \
        struct call c = call(keys); \
        struct keyline_room room = c.room; \
        change; \
        hold(made(&c) == (status), what); \
        c.room = room; \
        drop(&c); \
    } while (0)

/* Whether the line is this text. */
static bool is_line(struct call *c, const char *line)
{
    return c->step.status == KEYLINE_LINE && c->step.line == strlen(line) && memcmp(c->room.line.bytes, line, c->step.line) == 0;
}

/* Begins the next line with the results of the call. */
static void go_on(struct call *c, const char *keys)
{
    if (c->step.history > 0) {
        free(c->history);
        c->history = c->room.history.bytes;
        c->given.history = (struct keyline_text){c->history, c->step.history};
        c->room.history = space(4096);
    }
    free(c->kills), free(c->ends);
    c->kills = c->room.kills.bytes;
    c->ends = c->room.ends;
    c->given.kills = (struct keyline_text){c->kills, c->step.kills};
    c->given.ends = c->ends;
    c->given.slots = c->step.slots;
    c->room.kills = space(4096);
    c->room.ends = malloc(KEYLINE_SLOTS * sizeof(size_t));
    c->options.place = c->step.place;
    c->options.sent = 0;
    c->given.keys = text(keys);
}

static void bad_arguments(void)
{
    static const size_t past[] = {9}, back[] = {3, 2}, inside[] = {1, 2};
    STATUS("no column", "", c.options.columns = 0, KEYLINE_ARGUMENT);
    STATUS("one column", "", c.options.columns = 1, KEYLINE_ARGUMENT);
    STATUS("two columns", "", c.options.columns = 2, KEYLINE_MORE);
    STATUS("1,000 columns", "", c.options.columns = 1000, KEYLINE_MORE);
    STATUS("1,001 columns", "", c.options.columns = 1001, KEYLINE_ARGUMENT);
    STATUS("65,535 columns", "", c.options.columns = 65535, KEYLINE_ARGUMENT);
    STATUS("Vi", "", c.options.mode = KEYLINE_VI, KEYLINE_MORE);
    STATUS("no mode", "", c.options.mode = 2, KEYLINE_ARGUMENT);
    STATUS("no mode by far", "", c.options.mode = 255, KEYLINE_ARGUMENT);
    STATUS("more sent than there is", "", c.options.sent = 4096, KEYLINE_ARGUMENT);
    STATUS("a prompt that isn't UTF-8", "", c.given.prompt = text("\xff"), KEYLINE_ARGUMENT);
    STATUS("words that aren't UTF-8", "", c.given.words = text("a\n\xff\n"), KEYLINE_ARGUMENT);
    STATUS("a history that isn't UTF-8", "", c.given.history = text("a\n\xff\n"), KEYLINE_ARGUMENT);
    STATUS("kills that aren't UTF-8", "", (c.given.kills = text("\xff\xff"), c.given.ends = inside, c.given.slots = 2), KEYLINE_ARGUMENT);
    STATUS("a kill in mid-character", "", (c.given.kills = text("\u00e9"), c.given.ends = inside, c.given.slots = 2), KEYLINE_ARGUMENT);
    STATUS("a kill past the texts", "", (c.given.kills = text("abc"), c.given.ends = past, c.given.slots = 1), KEYLINE_ARGUMENT);
    STATUS("kills that go back", "", (c.given.kills = text("abc"), c.given.ends = back, c.given.slots = 2), KEYLINE_ARGUMENT);
    STATUS("a text after the last kill", "", (c.given.kills = text("abc"), c.given.ends = inside, c.given.slots = 2), KEYLINE_ARGUMENT);
    STATUS("kills without a slot", "", c.given.kills = text("abc"), KEYLINE_ARGUMENT);
    STATUS("the first of two slots", "", (c.given.kills = text("ab"), c.given.ends = inside, c.given.slots = 2), KEYLINE_MORE);
    STATUS("a place without a slot", "", c.options.place = 1, KEYLINE_ARGUMENT);
    STATUS("a place past the slots", "", (c.given.kills = text("ab"), c.given.ends = inside, c.given.slots = 2, c.options.place = 2), KEYLINE_ARGUMENT);
    STATUS("more slots than there are", "", (c.given.ends = c.room.ends, c.given.slots = KEYLINE_SLOTS + 1), KEYLINE_ARGUMENT);
    STATUS("slots without ends", "", c.given.slots = 1, KEYLINE_ARGUMENT);
    STATUS("keys without a pointer", "", c.given.keys = ((struct keyline_text){NULL, 1}), KEYLINE_ARGUMENT);
    STATUS("a prompt without a pointer", "", c.given.prompt = ((struct keyline_text){NULL, 1}), KEYLINE_ARGUMENT);
    STATUS("words without a pointer", "", c.given.words = ((struct keyline_text){NULL, 1}), KEYLINE_ARGUMENT);
    STATUS("a history without a pointer", "", c.given.history = ((struct keyline_text){NULL, 1}), KEYLINE_ARGUMENT);
    STATUS("kills without a pointer", "", c.given.kills = ((struct keyline_text){NULL, 1}), KEYLINE_ARGUMENT);
    STATUS("an impossible length", "", c.given.prompt.length = SIZE_MAX, KEYLINE_ARGUMENT);
    STATUS("an impossible buffer size", "", c.room.line.size = SIZE_MAX, KEYLINE_ARGUMENT);
    struct call c = call("");
    keyline_line(NULL, &c.given, &c.room, &c.step);
    hold(c.step.status == KEYLINE_ARGUMENT, "no options");
    keyline_line(&c.options, NULL, &c.room, &c.step);
    hold(c.step.status == KEYLINE_ARGUMENT, "nothing given");
    keyline_line(&c.options, &c.given, NULL, &c.step);
    hold(c.step.status == KEYLINE_ARGUMENT, "no buffers");
    keyline_line(&c.options, &c.given, &c.room, NULL);
    drop(&c);
}

static void endings(void)
{
    STATUS("no key", "", (void)0, KEYLINE_MORE);
    STATUS("no key, without pointers", "", (c.given.keys = (struct keyline_text){0}, c.given.prompt = (struct keyline_text){0}), KEYLINE_MORE);
    STATUS("half a key", "\x1b[", (void)0, KEYLINE_MORE);
    STATUS("half a character", "\xc3", (void)0, KEYLINE_MORE);
    STATUS("a line", "ab\r", (void)0, KEYLINE_LINE);
    STATUS("Ctrl-C", "ab\x03", (void)0, KEYLINE_INTERRUPTED);
    STATUS("Ctrl-D", "\x04", (void)0, KEYLINE_END);
    STATUS("the keys' end", "ab", c.options.ended = true, KEYLINE_END);
    STATUS("no character", "\xff", (void)0, KEYLINE_NOT_UTF8);
    STATUS("a paste in the middle of two keys", "\x18\x1b[200~x\x1b[201~", (void)0, KEYLINE_PASTE_OUT_OF_PLACE);
    STATUS("an open bracket", "(\r", c.options.brackets = true, KEYLINE_MORE);
    STATUS("an open bracket that may stand", "(\r", (void)0, KEYLINE_LINE);
}

/* The bytes sent for fewer keys are a prefix of those sent for more. */
static void beginnings(const char *keys, uint8_t mode)
{
    struct call all = call(keys);
    size_t count = all.given.keys.length, sent = 0;
    all.options.mode = mode;
    made(&all);
    for (size_t n = 0; n < count; n++) {
        struct call c = call(keys);
        c.given.keys.length = n;
        c.options.mode = mode;
        c.options.sent = sent;
        hold(made(&c) == KEYLINE_MORE && c.step.sent == sent + c.step.display && c.step.sent <= all.step.sent &&
                 memcmp(c.room.display.bytes, all.room.display.bytes + sent, c.step.display) == 0,
             "display bytes of fewer keys");
        sent = c.step.sent;
        drop(&c);
    }
    drop(&all);
}

/* Fills the four text buffers and the ends. */
static void fill(struct keyline_room *room)
{
    struct keyline_space spaces[] = {room->display, room->line, room->history, room->kills};
    for (int which = 0; which < 4; which++) memset(spaces[which].bytes, '#', spaces[which].size);
    memset(room->ends, '#', KEYLINE_SLOTS * sizeof(size_t));
}

static bool is_filled(const uint8_t *bytes, size_t size)
{
    for (size_t n = 0; n < size; n++)
        if (bytes[n] != '#') return false;
    return true;
}

/* Whether they are as `fill` left them. */
static bool is_untouched(const struct keyline_room *room)
{
    return is_filled(room->display.bytes, room->display.size) && is_filled(room->line.bytes, room->line.size) &&
           is_filled(room->history.bytes, room->history.size) && is_filled(room->kills.bytes, room->kills.size) &&
           is_filled((const uint8_t *)room->ends, KEYLINE_SLOTS * sizeof(size_t));
}

/* A buffer that is too small, and then one of exactly the needed size. */
static void rooms(void)
{
    struct call c = call("one \x15two\rrest");
    hold(made(&c) == KEYLINE_LINE && is_line(&c, "two") && c.step.keys == 9, "a line, and the keys after it");
    struct keyline_step all = c.step;
    for (int which = 0; which < 4; which++) {
        struct call small = call("one \x15two\rrest");
        struct keyline_space *it = which == 0 ? &small.room.display : which == 1 ? &small.room.line : which == 2 ? &small.room.history : &small.room.kills;
        size_t size = which == 0 ? all.display : which == 1 ? all.line : which == 2 ? all.history : all.kills;
        free(it->bytes);
        *it = space(size - 1);
        fill(&small.room);
        hold(made(&small) == KEYLINE_ROOM && is_untouched(&small.room), "a buffer one byte too small, and all buffers as they were");
        hold(small.step.display == all.display && small.step.line == all.line && small.step.history == all.history && small.step.kills == all.kills, "the lengths that are needed");
        free(it->bytes);
        *it = space(size);
        hold(made(&small) == KEYLINE_LINE && is_line(&small, "two"), "a buffer of exactly the needed size");
        drop(&small);
    }
    drop(&c);
}

static bool is_same_step(const struct keyline_step *a, const struct keyline_step *b)
{
    return a->status == b->status && a->display == b->display && a->sent == b->sent && a->line == b->line && a->keys == b->keys &&
           a->history == b->history && a->kills == b->kills && a->slots == b->slots && a->place == b->place && a->cursor == b->cursor;
}

/* Of a text that isn't wanted the length is told, and the other buffers are written. */
static void unwanted(void)
{
    struct call all = call("one \x15two\r");
    made(&all);
    for (int which = 0; which < 5; which++) {
        struct call c = call("one \x15two\r");
        struct keyline_room room = c.room;
        struct keyline_space *spaces[] = {&c.room.display, &c.room.line, &c.room.history, &c.room.kills};
        if (which < 4) spaces[which]->bytes = NULL;
        else c.room.ends = NULL;
        fill(&room);
        hold(made(&c) == KEYLINE_LINE && is_same_step(&c.step, &all.step), "a buffer that isn't there, and all lengths");
        hold((which == 1) == is_filled(room.line.bytes, room.line.size) && (which == 3) == is_filled(room.kills.bytes, room.kills.size),
             "only its text isn't written");
        c.room = room;
        drop(&c);
    }
    struct call none = call("ab\x1b[D");
    struct keyline_room room = none.room;
    none.room = (struct keyline_room){0};
    hold(made(&none) == KEYLINE_MORE && none.step.line == 2 && none.step.cursor == 1 && none.step.display > 0, "no buffer at all");
    none.room = room;
    drop(&none);
    drop(&all);
}

/* Whether the line goes on with this text, and the cursor after so many bytes of it. */
static void is_open(const char *keys, const char *line, size_t cursor)
{
    struct call c = call(keys);
    hold(made(&c) == KEYLINE_MORE && c.step.line == strlen(line) && memcmp(c.room.line.bytes, line, c.step.line) == 0, "an open line");
    hold(c.step.cursor == cursor, "its cursor");
    free(c.room.line.bytes);
    c.room.line = space(strlen(line));
    hold(made(&c) == KEYLINE_MORE && memcmp(c.room.line.bytes, line, c.step.line) == 0, "an open line in a buffer of its size");
    if (c.room.line.size > 0) {
        c.room.line.size -= 1;
        fill(&c.room);
        hold(made(&c) == KEYLINE_ROOM && is_untouched(&c.room) && c.step.line == strlen(line), "an open line, and too small a buffer");
    }
    drop(&c);
}

static void open_lines(void)
{
    is_open("", "", 0);
    is_open("ab", "ab", 2);
    is_open("ab\x1b[Dc", "acb", 2);
    is_open("ab\x1b[D\x1b", "ab", 1);
    is_open("ab\x01", "ab", 0);
    is_open("h\u00e9\u6f22\x1b[D", "h\u00e9\u6f22", 3);
    is_open("\x1b[200~a\rb\x1b[201~\x1b[D", "a\nb", 2);
    is_open("ab\x17", "", 0);
}

/* The call's status for these keys, if Tab, Ctrl-X Ctrl-E, Alt-. and something that is no key are asked for. */
static struct keyline_step asked(const char *keys, uint8_t mode)
{
    static const char asks[] = "\t\0\x18\x05\0\033.\0\033[";
    struct call c = call(keys);
    struct keyline_step step;
    c.options.mode = mode;
    c.given.words = text("above\n");
    c.given.asks = (struct keyline_text){(const uint8_t *)asks, sizeof asks - 1};
    made(&c);
    hold(c.step.status != KEYLINE_ASKED || memcmp(c.room.line.bytes, "ab", 2) == 0, "the line before a key that is asked for");
    step = c.step;
    drop(&c);
    return step;
}

static void is_asked(const char *keys, uint8_t mode, size_t count, size_t cursor)
{
    struct keyline_step step = asked(keys, mode);
    hold(step.status == KEYLINE_ASKED && step.keys == count && step.line == 2 && step.cursor == cursor && step.history == 0, "a key that is asked for");
}

static void own_keys(void)
{
    is_asked("ab\t", KEYLINE_EMACS, 3, 2);
    is_asked("ab\tcd\r", KEYLINE_EMACS, 3, 2);
    is_asked("ab\x1b[D\t\t", KEYLINE_EMACS, 6, 1);
    is_asked("ab\x18\x05", KEYLINE_EMACS, 4, 2);
    is_asked("ab\x1b.", KEYLINE_EMACS, 4, 2);
    is_asked("ab\t", KEYLINE_VI, 3, 2);
    hold(asked("ab\x18", KEYLINE_EMACS).status == KEYLINE_MORE, "half of the keys that are asked for");
    hold(asked("ab\x05\x12\x1b", KEYLINE_EMACS).status == KEYLINE_MORE, "keys that aren't asked for");
    hold(asked("\x1b[200~a\tb\x1b[201~", KEYLINE_EMACS).status == KEYLINE_MORE, "a pasted key");
    hold(asked("ab\r\t", KEYLINE_EMACS).status == KEYLINE_LINE, "a key after the line");
    STATUS("own keys without a pointer", "", c.given.asks = ((struct keyline_text){NULL, 1}), KEYLINE_ARGUMENT);
}

/* Incremental search, if it is turned on. */
static void modal(void)
{
    for (int on = 0; on < 2; on++) {
        struct call c = call("\x12lp\r");
        c.options.modal = on;
        c.given.history = text("#V2\nalpha\nbeta\n");
        hold(made(&c) == KEYLINE_LINE && is_line(&c, on ? "alpha" : "lp"), "Ctrl-R");
        drop(&c);
    }
}

static void lines(void)
{
    struct call c = call("one \x15two\r");
    hold(made(&c) == KEYLINE_LINE && is_line(&c, "two"), "a line after a kill");
    hold(c.step.slots == 1 && c.step.kills == 4 && memcmp(c.room.kills.bytes, "one ", 4) == 0, "the kill ring");
    go_on(&c, "\x19\r");
    hold(made(&c) == KEYLINE_LINE && is_line(&c, "one "), "a kill of the line before, yanked");
    go_on(&c, "\x10\x10\r");
    hold(made(&c) == KEYLINE_LINE && is_line(&c, "two"), "the line before the last");
    go_on(&c, "gone\x17\x03");
    hold(made(&c) == KEYLINE_INTERRUPTED && c.step.slots == 2 && c.step.place == 1, "the ring after Ctrl-C");
    go_on(&c, "\x19\x1by\r");
    hold(made(&c) == KEYLINE_LINE && is_line(&c, "one ") && c.step.place == 0, "a ring that is turned");
    go_on(&c, "\x19\r");
    hold(made(&c) == KEYLINE_LINE && is_line(&c, "one "), "and stays so");
    go_on(&c, "be\t\r");
    c.given.words = text("alpha\nbeta\n");
    hold(made(&c) == KEYLINE_LINE && is_line(&c, "beta"), "a word that Tab completes");
    drop(&c);
}

static void words(void)
{
    hold(keyline_version() == KEYLINE_VERSION, "the version");
    hold(strcmp(keyline_status_text(KEYLINE_MEMORY), "out of memory") == 0, "a status in words");
    hold(strcmp(keyline_status_text(255), "no status") == 0, "no status in words");
}

/* How many bytes the history has after a line, if 300 equal entries were there before. */
static size_t kept(size_t entries)
{
    static char rows[604] = "#V2\n";
    struct call c = call("b\r");
    size_t size;
    for (int it = 0; it < 300; it++) memcpy(rows + 4 + 2 * it, "a\n", 2);
    c.given.history = (struct keyline_text){(const uint8_t *)rows, 604};
    c.options.entries = entries;
    made(&c);
    size = c.step.history;
    drop(&c);
    return size;
}

static void entries(void)
{
    hold(kept(0) == 8, "equal neighbours once");
    hold(kept(1000) == 606, "all entries");
    hold(kept(200) == 404, "the newest entries");
}

int main(void)
{
    words();
    entries();
    bad_arguments();
    endings();
    beginnings("ab\x1b[Dc\u00e9\x1b[200~p\rq\x1b[201~\x01\x0b\x19\x1f\r", KEYLINE_EMACS);
    beginnings("one two\x1b" "bdwu0fnx3p\x1b" "A!\r", KEYLINE_VI);
    rooms();
    unwanted();
    open_lines();
    own_keys();
    modal();
    lines();
    printf("%d passed, %d failed\n", passed, failed);
    return failed > 0;
}
