/* Bytes that grow, UTF-8, and columns. */
#include "internal.h"

void end_without_memory(void)
{
    fputs("readline: out of memory\n", stderr);
    exit(2);
}

void *allocate(void *old, size_t size)
{
    void *at = realloc(old, size);
    if (at == NULL) end_without_memory();
    return at;
}

void bytes_reserve(struct bytes *b, size_t size)
{
    if (size <= b->size) return;
    b->size = 2 * size + 256;
    b->at = allocate(b->at, b->size);
}

void bytes_add(struct bytes *b, const void *more, size_t count)
{
    bytes_reserve(b, b->length + count + 1);
    if (count > 0) memcpy(b->at + b->length, more, count);
    b->length += count;
    b->at[b->length] = 0;
}

void bytes_add_text(struct bytes *b, const char *text)
{
    bytes_add(b, text, strlen(text));
}

void bytes_clear(struct bytes *b)
{
    b->length = 0;
    bytes_add(b, NULL, 0);
}

bool bytes_end_with(const struct bytes *b, const char *text, size_t length)
{
    return b->length >= length && memcmp(b->at + b->length - length, text, length) == 0;
}

char *copy_of(const char *bytes, size_t count)
{
    char *text = allocate(NULL, count + 1);
    if (count > 0) memcpy(text, bytes, count);
    text[count] = 0;
    return text;
}

const char *find_bytes(const char *at, size_t count, const char *text)
{
    size_t length = strlen(text);
    for (const char *end = at + count; (size_t)(end - at) >= length; at++) {
        at = memchr(at, text[0], (size_t)(end - at) - length + 1);
        if (at == NULL || memcmp(at, text, length) == 0) return at;
    }
    return NULL;
}

/* The value of a character of so many bytes. */
static uint32_t value_of(const char *at, size_t length)
{
    uint32_t value = (unsigned char)at[0];
    if (length > 1) value &= 0x7Fu >> length;
    for (size_t i = 1; i < length; i++) value = value << 6 | ((unsigned char)at[i] & 0x3F);
    return value;
}

size_t character_length(const char *at, size_t count)
{
    static const uint32_t least[] = {0, 0, 0x80, 0x800, 0x10000};
    unsigned char lead;
    size_t length;
    uint32_t value;
    if (count == 0) return 0;
    lead = (unsigned char)at[0];
    length = lead < 0x80 ? 1 : lead < 0xC0 ? 0 : lead < 0xE0 ? 2 : lead < 0xF0 ? 3 : lead < 0xF8 ? 4 : 0;
    if (length == 0 || length > count) return 0;
    for (size_t i = 1; i < length; i++)
        if ((at[i] & 0xC0) != 0x80) return 0;
    value = value_of(at, length);
    if (value < least[length] || value > 0x10FFFF || (value >= 0xD800 && value < 0xE000)) return 0;
    return length;
}

void bytes_add_utf8(struct bytes *b, const char *text, size_t count)
{
    while (count > 0) {
        size_t length = character_length(text, count);
        bytes_add(b, length > 0 ? text : "?", length > 0 ? length : 1);
        text += length > 0 ? length : 1;
        count -= length > 0 ? length : 1;
    }
}

size_t character_columns(const char *at, size_t length)
{
    static const struct {
        uint32_t first, last;
        size_t columns;
    } odd[] = {{0x300, 0x36F, 0},     {0x1100, 0x115F, 2},   {0x200B, 0x200D, 0},   {0x20D0, 0x20FF, 0},
               {0x2E80, 0xA4CF, 2},   {0xAC00, 0xD7A3, 2},   {0xF900, 0xFAFF, 2},   {0xFE00, 0xFE0F, 0},
               {0xFE30, 0xFE4F, 2},   {0xFF00, 0xFF60, 2},   {0xFFE0, 0xFFE6, 2},   {0x1F300, 0x1F64F, 2},
               {0x1F680, 0x1F6FF, 2}, {0x1F900, 0x1F9FF, 2}, {0x20000, 0x3FFFD, 2}};
    uint32_t value = value_of(at, length);
    for (size_t i = 0; i < sizeof odd / sizeof *odd; i++)
        if (value >= odd[i].first && value <= odd[i].last) return odd[i].columns;
    return 1;
}

size_t text_columns(const char *text)
{
    size_t columns = 0, count = strlen(text);
    while (count > 0) {
        size_t length = character_length(text, count);
        columns += length > 0 ? character_columns(text, length) : 1;
        text += length > 0 ? length : 1;
        count -= length > 0 ? length : 1;
    }
    return columns;
}
