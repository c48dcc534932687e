/* What is sent of keyline_line's drawings, and where the display's cursor stands meanwhile. Rows are counted from the one in
 * which the prompt's last row begins. keyline_line sends text, CR, LF, `ESC [ n` with one of `ABCD`, and `ESC [` with one of
 * `HJKm`. None of its rows is broken by the terminal. */
#include "internal.h"

enum { ROWS = 1000 };
static size_t row, column;
static size_t widths[ROWS]; /* the columns that are used of each row, for a terminal that becomes narrower */

void display_begin(void)
{
    row = column = 0;
    memset(widths, 0, sizeof widths);
}

static void note_width(void)
{
    if (row < ROWS && column > widths[row]) widths[row] = column;
}

/* Follows a control sequence to its end. */
static const char *follow_sequence(const char *at)
{
    char *last;
    size_t n = strtoul(at + 2, &last, 10);
    if ((*last == 'J' || *last == 'K') && row < ROWS) widths[row] = column;
    for (size_t i = row + 1; *last == 'J' && i < ROWS && widths[i] > 0; i++) widths[i] = 0;
    if (*last == 'A') row -= n < row ? n : row;
    if (*last == 'B') row += n;
    if (*last == 'C') column += n;
    if (*last == 'D') column -= n < column ? n : column;
    if (*last == 'H') row = column = 0;
    return last + 1;
}

/* Follows the character, control character or sequence at the front. */
static const char *follow(const char *at, const char *end)
{
    size_t length;
    if (*at == '\033') return follow_sequence(at);
    length = character_length(at, (size_t)(end - at));
    if (length == 0) length = 1;
    if (*at == '\r') column = 0;
    else if (*at == '\n') row++;
    else column += character_columns(at, length);
    note_width();
    return at + length;
}

/* Sends bytes of a drawing. */
static void send(const char *at, size_t count)
{
    struct bytes changed = {0};
    if (!tabs_are_in(at, count)) {
        terminal_send(at, count);
        return;
    }
    tabs_show(&changed, at, count);
    terminal_send(changed.at, changed.length);
    free(changed.at);
}

/* Sends the prompt that is drawn at the front, with its colours. */
static const char *draw_prompt(const struct prompt *p, const char *at)
{
    const char *end = at + p->drawn.length;
    terminal_send(p->shown.at, p->shown.length);
    while (at < end) at = follow(at, end);
    return at;
}

void display_draw(const struct prompt *p, const char *at, size_t count)
{
    const char *from = at, *end = at + count, *erased = NULL;
    if (!terminal_is_drawn_on()) return;
    while (at < end) {
        const char *begin = at;
        bool is_sequence = *at == '\033';
        at = follow(at, end);
        if (is_sequence && at[-1] == 'J') erased = at;
        if (is_sequence && at[-1] == 'H') { /* the screen is cleared, and then the rows above come again */
            if (at < end && *at == '\033') at = follow(at, end);
            send(from, (size_t)(at - from));
            terminal_send(p->before.at, p->before.length);
            from = at;
        }
        if (begin != erased || !is_sequence || at[-1] != 'm' || !prompt_stands(p, at, (size_t)(end - at))) continue;
        send(from, (size_t)(at - from));
        at = from = draw_prompt(p, at);
    }
    send(from, (size_t)(end - from));
}

bool display_is_in_blank_row(void)
{
    return row > 0 && column == 0;
}

void display_to_top(void)
{
    char up[32];
    if (row > 0 && terminal_is_drawn_on()) terminal_send(up, (size_t)snprintf(up, sizeof up, "\033[%zuA", row));
    row = 0;
}

void display_narrow(size_t columns)
{
    size_t broken = 0;
    for (size_t i = 0; i < row && i < ROWS; i++)
        if (widths[i] > 0) broken += (widths[i] - 1) / columns;
    row += broken + column / columns;
}
