/* Prompts. Those of readline may have several rows, and between the marks \001 and \002 what takes no column, as colours.
 * keyline_line draws one row, in which a control character is a question mark. So it is handed the last row without what
 * takes no column. In each drawing, the bytes that it draws for that are replaced by those with the colours. */
#include "internal.h"

/* The reset that keyline_line draws around a prompt and a text. The drawing of an empty line begins with WHOLE and a reset, and
 * ends with three. */
static const char reset[] = "\033[m";
enum { RESET = sizeof reset - 1, FRONT = sizeof WHOLE - 1 + RESET, RESETS_BEHIND = 3 };

/* How many bytes at the front take no column: between marks, or a control sequence without marks. */
static size_t unseen(const char *at)
{
    const char *end;
    if (at[0] == RL_PROMPT_START_IGNORE) {
        end = strchr(at, RL_PROMPT_END_IGNORE);
        return end != NULL ? (size_t)(end + 1 - at) : strlen(at);
    }
    if (at[0] != '\033' || at[1] != '[') return 0;
    for (end = at + 2; *end >= 0x20 && *end < 0x40; end++);
    return (size_t)(end - at) + (*end != 0);
}

static void add_without_marks(struct bytes *b, const char *at, size_t count)
{
    for (size_t i = 0; i < count; i++)
        if (at[i] != RL_PROMPT_START_IGNORE && at[i] != RL_PROMPT_END_IGNORE) bytes_add(b, at + i, 1);
}

void prompt_set(struct prompt *p, const char *text)
{
    const char *row = strrchr(text, '\n');
    struct bytes seen = {0};
    row = row != NULL ? row + 1 : text;
    bytes_clear(&p->before);
    add_without_marks(&p->before, text, (size_t)(row - text));
    bytes_clear(&p->last);
    bytes_add_text(&p->last, row);
    for (const char *at = row; *at != 0;) {
        size_t skipped = unseen(at);
        if (skipped == 0) bytes_add(&seen, at++, 1);
        at += skipped;
    }
    bytes_clear(&p->seen);
    bytes_add_utf8(&p->seen, seen.at, seen.length);
    bytes_clear(&p->drawn);
    free(seen.at);
}

/* Adds what is drawn before this byte of the prompt: row breaks, and resets, which would end a colour and are left out. */
static void add_between(struct prompt *p, size_t *place, char byte)
{
    while (*place < p->drawn.length && p->drawn.at[*place] != byte) {
        if (strncmp(p->drawn.at + *place, reset, RESET) == 0) *place += RESET;
        else bytes_add(&p->shown, p->drawn.at + (*place)++, 1);
    }
}

/* Makes `shown` of the drawn prompt and the colours. False if a byte of the prompt is drawn as a question mark. */
static bool colour(struct prompt *p)
{
    size_t place = 0;
    bytes_clear(&p->shown);
    for (const char *at = p->last.at; *at != 0;) {
        size_t skipped = unseen(at);
        if (skipped > 0) {
            add_without_marks(&p->shown, at, skipped);
            at += skipped;
            continue;
        }
        add_between(p, &place, *at);
        if (place == p->drawn.length) return false;
        bytes_add(&p->shown, at++, 1);
        place++;
    }
    bytes_add(&p->shown, p->drawn.at + place, p->drawn.length - place);
    return true;
}

void prompt_learn(struct prompt *p, const char *drawing, size_t count)
{
    bytes_clear(&p->drawn);
    if (count < FRONT + RESETS_BEHIND * RESET) return;
    bytes_add(&p->drawn, drawing + FRONT, count - FRONT - RESETS_BEHIND * RESET);
    if (colour(p)) return;
    bytes_clear(&p->shown);
    bytes_add(&p->shown, p->drawn.at, p->drawn.length);
}

bool prompt_stands(const struct prompt *p, const char *at, size_t count)
{
    return count >= p->drawn.length + RESET && memcmp(at, p->drawn.at, p->drawn.length) == 0 &&
           memcmp(at + p->drawn.length, reset, RESET) == 0;
}
