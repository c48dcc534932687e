/* Keys that programs and inputrc bind. What isn't bound here is the keymap of keyline_line. */
#include "internal.h"
#include <ctype.h>
#include <strings.h>

struct binding {
    char keys[LONGEST_KEY];
    size_t length;
    rl_command_func_t *function;
};

struct named {
    const char *name;
    rl_command_func_t *function;
};

enum { MOST_BINDINGS = 128, MOST_ADDED = 64, LONGEST_ROW = 512 };

static struct binding bindings[MOST_BINDINGS] = {
    {"\t", 1, rl_complete},
    {"\021", 1, command_quoted_insert},
    {"\026", 1, command_quoted_insert},
    {"\022", 1, command_search_back},
    {"\023", 1, command_search_on},
    {"\033.", 2, command_last_word},
    {"\033_", 2, command_last_word},
};
static size_t binding_count = 7;

static const struct named commands[] = {
    {"accept-line", rl_newline},
    {"beginning-of-line", command_line_start},
    {"clear-screen", command_clear_screen},
    {"complete", rl_complete},
    {"end-of-line", command_line_end},
    {"forward-search-history", command_search_on},
    {"history-search-backward", command_prefix_back},
    {"history-search-forward", command_prefix_on},
    {"insert-last-argument", command_last_word},
    {"next-history", command_next},
    {"possible-completions", rl_possible_completions},
    {"previous-history", command_previous},
    {"quoted-insert", command_quoted_insert},
    {"reverse-search-history", command_search_back},
    {"rl_complete", rl_complete},
    {"self-insert", rl_insert},
    {"tab-insert", rl_insert},
    {"yank-last-arg", command_last_word},
};

static struct named added[MOST_ADDED];
static size_t added_count;

KEYMAP_ENTRY_ARRAY emacs_standard_keymap, emacs_meta_keymap;
bool shows_all, is_silent;

/* ---- the table ---- */

/* Whether a binding holds in the mode: in Vi, Esc and a character are two keys. */
static bool holds(const struct binding *it)
{
    return rl_editing_mode != 0 || it->length != 2 || it->keys[0] != '\033';
}

rl_command_func_t *bound_at_end(const struct bytes *keys, size_t *length)
{
    rl_command_func_t *found = NULL;
    *length = 0;
    for (size_t i = 0; i < binding_count; i++) {
        const struct binding *it = &bindings[i];
        if (it->length <= *length || !holds(it) || !bytes_end_with(keys, it->keys, it->length)) continue;
        found = it->function;
        *length = it->length;
    }
    return found;
}

size_t begun_key(const struct bytes *keys)
{
    size_t begun = 0, length;
    if (rl_editing_mode == 0 || bound_at_end(keys, &length) != NULL) return 0;
    for (size_t i = 0; i < binding_count; i++)
        for (length = begun + 1; length < bindings[i].length; length++)
            if (bytes_end_with(keys, bindings[i].keys, length)) begun = length;
    return begun;
}

/* A character that is bound to its own insertion is left to keyline_line. Answers 0, or 1 if the key can't be bound. */
static int bind_keys(const char *keys, size_t length, rl_command_func_t *function)
{
    size_t i = 0;
    if (length == 0 || length > LONGEST_KEY) return 1;
    if (function == rl_insert && length == 1 && isprint((unsigned char)keys[0])) function = NULL;
    while (i < binding_count && (bindings[i].length != length || memcmp(bindings[i].keys, keys, length) != 0)) i++;
    if (function == NULL) {
        if (i < binding_count) bindings[i] = bindings[--binding_count];
        return 0;
    }
    if (i == MOST_BINDINGS) return 1;
    if (i == binding_count) binding_count++;
    memcpy(bindings[i].keys, keys, length);
    bindings[i].length = length;
    bindings[i].function = function;
    return 0;
}

int rl_bind_key(int key, rl_command_func_t *function)
{
    char keys[] = {'\033', (char)(key & 0x7F)};
    if (key < 0 || key > 0xFF) return 1;
    return key & 0x80 ? bind_keys(keys, 2, function) : bind_keys(keys + 1, 1, function);
}

/* Other keymaps stay as they are. */
int rl_bind_key_in_map(int key, rl_command_func_t *function, Keymap map)
{
    char keys[] = {'\033', (char)key};
    if (map == emacs_standard_keymap) return rl_bind_key(key, function);
    return map == emacs_meta_keymap && key >= 0 && key < 0x80 ? bind_keys(keys, 2, function) : 0;
}

int rl_add_defun(const char *name, rl_command_func_t *function, int key)
{
    if (added_count < MOST_ADDED) added[added_count++] = (struct named){name, function};
    return key >= 0 ? rl_bind_key(key, function) : 0;
}

static rl_command_func_t *command_named(const char *name)
{
    for (size_t i = 0; i < added_count; i++)
        if (strcasecmp(added[i].name, name) == 0) return added[i].function;
    for (size_t i = 0; i < sizeof commands / sizeof *commands; i++)
        if (strcasecmp(commands[i].name, name) == 0) return commands[i].function;
    return NULL;
}

/* ---- names of keys ---- */

/* The byte that an escape of inputrc stands for, with the rest of its text in `at`. */
static char escaped(const char **at)
{
    static const char letters[] = "abdefnrtv", bytes[] = "\a\b\177\033\f\n\r\t\v";
    const char *letter = strchr(letters, **at);
    unsigned value = 0;
    if (**at >= '0' && **at <= '7') {
        for (int i = 0; i < 3 && **at >= '0' && **at <= '7'; i++) value = value * 8 + (unsigned)(*(*at)++ - '0');
        return (char)value;
    }
    if (**at == 0) return '\\';
    return letter != NULL ? (++*at, bytes[letter - letters]) : *(*at)++;
}

/* The bytes of a quoted key sequence. */
static size_t key_sequence(const char *at, char *keys)
{
    size_t length = 0;
    bool is_control = false;
    while (*at != 0 && length < LONGEST_KEY) {
        char byte;
        if (strncmp(at, "\\C-", 3) == 0) {
            is_control = true;
            at += 3;
            continue;
        }
        if (strncmp(at, "\\M-", 3) == 0) {
            keys[length++] = '\033';
            at += 3;
            continue;
        }
        byte = *at++;
        if (byte == '\\') byte = escaped(&at);
        keys[length++] = !is_control ? byte : byte == '?' ? '\177' : (char)CTRL(byte);
        is_control = false;
    }
    return *at == 0 ? length : 0;
}

/* The bytes of a key without quotes: a character or a name, after `Control-` or `Meta-`. */
static size_t key_named(const char *at, char *keys)
{
    static const struct {
        const char *name;
        char byte;
    } names[] = {{"tab", '\t'}, {"esc", '\033'}, {"escape", '\033'}, {"rubout", '\177'}, {"del", '\177'},
                 {"return", '\r'}, {"ret", '\r'}, {"newline", '\n'}, {"lfd", '\n'}, {"space", ' '}, {"spc", ' '}};
    bool is_control = strncasecmp(at, "control-", 8) == 0 || strncasecmp(at, "c-", 2) == 0;
    bool is_meta = strncasecmp(at, "meta-", 5) == 0 || strncasecmp(at, "m-", 2) == 0;
    const char *name = is_control || is_meta ? strchr(at, '-') + 1 : at;
    char byte = name[0];
    for (size_t i = 0; i < sizeof names / sizeof *names; i++)
        if (strcasecmp(names[i].name, name) == 0) byte = names[i].byte;
    if (byte == 0) return 0;
    keys[0] = '\033';
    keys[is_meta] = is_control ? (char)CTRL(byte) : byte;
    return is_meta ? 2 : 1;
}

int rl_bind_keyseq(const char *text, rl_command_func_t *function)
{
    char keys[LONGEST_KEY];
    return bind_keys(keys, key_sequence(text, keys), function);
}

/* ---- inputrc ---- */

int rl_variable_bind(const char *name, const char *value)
{
    bool is_on = strcasecmp(value, "on") == 0 || strcmp(value, "1") == 0;
    if (strcasecmp(name, "editing-mode") == 0) rl_editing_mode = strcasecmp(value, "vi") != 0;
    else if (strcasecmp(name, "enable-bracketed-paste") == 0) pastes_are_marked = is_on;
    else if (strcasecmp(name, "completion-query-items") == 0) rl_completion_query_items = atoi(value);
    else if (strcasecmp(name, "disable-completion") == 0) rl_inhibit_completion = is_on;
    else if (strcasecmp(name, "show-all-if-ambiguous") == 0) shows_all = is_on;
    else if (strcasecmp(name, "bell-style") == 0) is_silent = strcasecmp(value, "none") == 0;
    return 0;
}

/* `set NAME VALUE`, `"KEYS": COMMAND` or `KEY: COMMAND`. */
int rl_parse_and_bind(char *row)
{
    char name[64], value[64], text[64], keys[LONGEST_KEY];
    bool is_quoted;
    rl_command_func_t *function;
    if (sscanf(row, " set %63s %63s", name, value) == 2) return rl_variable_bind(name, value);
    is_quoted = sscanf(row, " \"%63[^\"]\" : %63s", text, name) == 2;
    if (!is_quoted && sscanf(row, " %63[^: ] : %63s", text, name) != 2) return 1;
    function = command_named(name);
    if (function == NULL) return 0;
    return bind_keys(keys, is_quoted ? key_sequence(text, keys) : key_named(text, keys), function);
}

/* Whether the rows after `$if` count. */
static bool is_meant(const char *test)
{
    char mode[16];
    if (sscanf(test, "mode=%15s", mode) == 1) return (strcasecmp(mode, "vi") == 0) == (rl_editing_mode == 0);
    return strncasecmp(test, rl_readline_name, strlen(rl_readline_name)) == 0;
}

/* Reads the rows of a file. `skipped` counts the open conditions from the first one on that doesn't hold. */
static void read_rows(FILE *file)
{
    char row[LONGEST_ROW], test[64], name[256];
    int skipped = 0;
    while (fgets(row, sizeof row, file) != NULL) {
        const char *at = row + strspn(row, " \t");
        if (sscanf(at, "$if %63s", test) == 1) skipped += skipped > 0 || !is_meant(test);
        else if (strncmp(at, "$else", 5) == 0) skipped = skipped == 0 ? 1 : skipped == 1 ? 0 : skipped;
        else if (strncmp(at, "$endif", 6) == 0) skipped -= skipped > 0;
        else if (skipped == 0 && sscanf(at, "$include %255s", name) == 1) rl_read_init_file(name);
        else if (skipped == 0 && *at != '#' && *at != '$') rl_parse_and_bind(row);
    }
}

static FILE *open_below_home(const char *name)
{
    const char *home = getenv("HOME");
    struct bytes path = {0};
    FILE *file;
    bytes_add_text(&path, home != NULL ? home : ".");
    bytes_add_text(&path, name);
    file = fopen(path.at, "r");
    free(path.at);
    return file;
}

/* Without a name: the file that INPUTRC names, ~/.inputrc, or /etc/inputrc. */
int rl_read_init_file(const char *name)
{
    static int depth;
    FILE *file;
    if (name == NULL) name = getenv("INPUTRC");
    if (name != NULL && name[0] == '~' && name[1] == '/') file = open_below_home(name + 1);
    else file = name != NULL ? fopen(name, "r") : open_below_home("/.inputrc");
    if (file == NULL && name == NULL) file = fopen("/etc/inputrc", "r");
    if (file == NULL) return 2;
    if (depth++ < 8) read_rows(file);
    depth--;
    fclose(file);
    return 0;
}
