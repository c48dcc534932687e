/* Tabs. keyline_line draws a tab as a question mark. So it is handed U+2001 for a tab, a space of one column, and a blank is
 * sent for that. For U+2001 it is handed U+F8FF, and for U+F8FF a tab. So it has another text for each text, and what it
 * answers is changed back. Among keys a tab outside a paste is the key Tab, and stays. */
#include "internal.h"

static const char space[] = "\xE2\x80\x81", spare[] = "\xEF\xA3\xBF";
enum { LENGTH = sizeof space - 1 };

/* What is put for each of the three. */
struct change {
    const char *tab, *space, *spare;
};
static const struct change hidden = {space, spare, "\t"}, restored = {spare, "\t", space}, shown = {"?", " ", space};
/* Among keys outside a paste. U+F8FF is pasted, since a tab would be the key. */
static const struct change typed = {"\t", spare, PASTE "\t" PASTED}, typed_back = {"\t", "\t", space};

static bool begins_with(const char *at, const char *end, const char *text)
{
    return end - at >= LENGTH && memcmp(at, text, LENGTH) == 0;
}

/* The first byte with which something may begin that is changed. */
static const char *next_place(const char *at, const char *end)
{
    while (at < end && *at != '\t' && *at != space[0] && *at != spare[0]) at++;
    return at;
}

static void change(struct bytes *to, const char *at, size_t count, const struct change *by)
{
    const char *end = at + count;
    while (at < end) {
        const char *place = next_place(at, end), *text = NULL;
        bytes_add(to, at, (size_t)(place - at));
        at = place;
        if (at == end) return;
        if (*at == '\t') text = by->tab;
        else if (begins_with(at, end, space)) text = by->space;
        else if (begins_with(at, end, spare)) text = by->spare;
        if (text != NULL) bytes_add_text(to, text);
        else bytes_add(to, at, 1);
        at += text != NULL && *at != '\t' ? LENGTH : 1;
    }
}

bool tabs_are_in(const char *at, size_t count)
{
    if (count == 0) return false;
    return memchr(at, '\t', count) != NULL || find_bytes(at, count, space) != NULL || find_bytes(at, count, spare) != NULL;
}

void tabs_hide(struct bytes *to, const char *text, size_t count)
{
    change(to, text, count, &hidden);
}

void tabs_restore(struct bytes *to, const char *text, size_t count)
{
    change(to, text, count, &restored);
}

void tabs_show(struct bytes *to, const char *drawing, size_t count)
{
    change(to, drawing, count, &shown);
}

/* Changes keys in one way outside pastes, and in another inside them. */
static void change_keys(struct bytes *to, const char *keys, size_t count, const struct change *outside, const struct change *inside)
{
    const char *end = keys + count;
    while (keys < end) {
        const char *paste = find_bytes(keys, (size_t)(end - keys), PASTE), *pasted;
        if (paste == NULL) paste = end;
        change(to, keys, (size_t)(paste - keys), outside);
        pasted = find_bytes(paste, (size_t)(end - paste), PASTED);
        if (pasted == NULL) pasted = end;
        change(to, paste, (size_t)(pasted - paste), inside);
        keys = pasted;
    }
}

void tabs_hide_in_keys(struct bytes *to, const char *keys, size_t count)
{
    change_keys(to, keys, count, &typed, &hidden);
}

void tabs_restore_in_keys(struct bytes *to, const char *keys, size_t count)
{
    change_keys(to, keys, count, &typed_back, &restored);
}
