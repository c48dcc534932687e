/* Programs over readline's interface, for tests/c/readline.py, which links them to libkeyline-readline.
 *
 *     readline_lines lines     reads lines, and writes each of them
 *     readline_lines leaves    the same; at SIGINT it leaves the line by a jump
 *     readline_lines events    the same with a loop of its own; at SIGUSR1 it writes a message above the open line
 *     readline_lines history   calls of the history and its files, in the folder where it runs */
#include <errno.h>
#include <readline/history.h>
#include <readline/readline.h>
#include <setjmp.h>
#include <signal.h>
#include <stdbool.h>
#include <stdlib.h>
#include <string.h>
#include <sys/select.h>
#include <sys/stat.h>
#include <unistd.h>

static volatile sig_atomic_t has_message;
static sigjmp_buf before_line;
static bool is_over;
static int passed, failed;

/* Writes a line in rows of 30 bytes, and a control character as a question mark. */
static void write_line(char *line)
{
    int column = 0;
    if (*line != 0) add_history(line);
    printf("got <");
    for (const char *at = line; *at != 0; at++) {
        bool is_newline = *at == '\n';
        if (is_newline || column == 30) putchar('\n');
        if (is_newline || column == 30) column = 0;
        if (is_newline) continue;
        putchar((unsigned char)*at < ' ' ? '?' : *at);
        column++;
    }
    printf(">\n");
    fflush(stdout);
    free(line);
}

static int read_lines(void)
{
    char *line;
    while ((line = readline("> ")) != NULL) write_line(line);
    return 0;
}

static void leave_line(int number)
{
    (void)number;
    siglongjmp(before_line, 1);
}

static int read_leaving(void)
{
    struct sigaction action = {0};
    action.sa_handler = leave_line;
    sigaction(SIGINT, &action, NULL);
    if (sigsetjmp(before_line, 1) != 0) printf("\nleft\n");
    return read_lines();
}

/* ---- a loop of its own ---- */

static void take_line(char *line)
{
    is_over = line == NULL;
    if (is_over) rl_callback_handler_remove();
    else write_line(line);
}

static void note_message(int number)
{
    (void)number;
    has_message = 1;
}

/* Writes a message as programs do that have one while a line is typed. */
static void write_message(void)
{
    static int number;
    int point = rl_point;
    char *text = rl_copy_text(0, rl_end);
    rl_save_prompt();
    rl_replace_line("", 0);
    rl_redisplay();
    printf("message %d\n", ++number);
    rl_restore_prompt();
    rl_replace_line(text, 0);
    rl_point = point;
    rl_forced_update_display();
    free(text);
}

static int read_events(void)
{
    struct sigaction action = {0};
    sigset_t blocked, none;
    action.sa_handler = note_message;
    sigemptyset(&none);
    sigemptyset(&blocked);
    sigaddset(&blocked, SIGUSR1);
    sigprocmask(SIG_BLOCK, &blocked, NULL);
    sigaction(SIGUSR1, &action, NULL);
    rl_callback_handler_install("> ", take_line);
    while (!is_over) {
        fd_set files;
        FD_ZERO(&files);
        FD_SET(STDIN_FILENO, &files);
        if (pselect(1, &files, NULL, NULL, NULL, &none) > 0) rl_callback_read_char();
        else if (errno == EINTR && has_message) write_message();
        has_message = 0;
    }
    return 0;
}

/* ---- the history ---- */

static void expect(bool holds, const char *what)
{
    passed += holds;
    failed += !holds;
    if (!holds) printf("FAILED: %s\n", what);
}

static bool is_entry(const HIST_ENTRY *entry, const char *line)
{
    return entry != NULL && strcmp(entry->line, line) == 0;
}

static void add_numbered(int first, int last)
{
    char line[32];
    for (int i = first; i <= last; i++) {
        snprintf(line, sizeof line, "entry %d", i);
        add_history(line);
    }
}

static void walk(void)
{
    clear_history();
    add_numbered(1, 300);
    expect(history_length == 300 && history_base == 1, "300 entries are kept");
    expect(is_entry(history_get(1), "entry 1") && is_entry(history_get(300), "entry 300"), "history_get");
    expect(history_get(0) == NULL && history_get(301) == NULL, "history_get of no entry");
    using_history();
    expect(where_history() == 300 && current_history() == NULL && next_history() == NULL, "the place after the last entry");
    expect(is_entry(previous_history(), "entry 300") && is_entry(previous_history(), "entry 299"), "previous_history");
    expect(is_entry(next_history(), "entry 300") && next_history() == NULL, "next_history");
    expect(history_set_pos(0) == 1 && is_entry(current_history(), "entry 1") && previous_history() == NULL, "the first place");
    expect(history_set_pos(301) == 0 && history_set_pos(-1) == 0, "places that aren't there");
    using_history();
    expect(history_search("try 29", -1) == 2 && where_history() == 298, "history_search");
    expect(history_search_prefix("try 29", -1) == -1, "history_search_prefix without a match");
    expect(history_search_prefix("entry 10", -1) == 0 && where_history() == 108, "history_search_prefix");
}

static void change(void)
{
    HIST_ENTRY *old, **list = history_list();
    HISTORY_STATE *state = history_get_history_state();
    expect(state->length == 300 && state->entries == list && list[300] == NULL, "history_get_history_state, history_list");
    free(state);
    old = remove_history(1);
    expect(is_entry(old, "entry 2") && history_length == 299 && is_entry(history_get(2), "entry 3"), "remove_history");
    free_history_entry(old);
    old = replace_history_entry(0, "other", NULL);
    expect(is_entry(old, "entry 1") && is_entry(history_get(1), "other"), "replace_history_entry");
    free_history_entry(old);
    expect(remove_history(299) == NULL && replace_history_entry(-1, "x", NULL) == NULL, "entries that aren't there");
    stifle_history(10);
    expect(history_is_stifled() && history_length == 10 && is_entry(history_get(history_base + 9), "entry 300"), "stifle_history");
    add_history("newest");
    expect(history_length == 10 && is_entry(history_get(history_base + 9), "newest"), "an entry more than the limit");
    expect(unstifle_history() == 10 && !history_is_stifled() && unstifle_history() < 0, "unstifle_history");
    add_history("one more");
    expect(history_length == 11, "no limit any more");
}

static bool is_file(const char *name, const char *text)
{
    char found[4096] = "";
    FILE *file = fopen(name, "r");
    size_t count = file != NULL ? fread(found, 1, sizeof found - 1, file) : 0;
    if (file != NULL) fclose(file);
    return file != NULL && count == strlen(text) && strcmp(found, text) == 0;
}

static void files(void)
{
    struct stat it;
    clear_history();
    add_numbered(1, 300);
    expect(write_history("all") == 0 && stat("all", &it) == 0, "write_history");
    expect((it.st_mode & 0777) == 0600, "a new file is for its owner alone");
    clear_history();
    expect(read_history("all") == 0 && history_length == 300 && is_entry(history_get(300), "entry 300"), "300 in, 300 out");
    expect(history_truncate_file("all", 2) == 0 && is_file("all", "entry 299\nentry 300\n"), "history_truncate_file");
    expect(append_history(1, "all") == 0 && is_file("all", "entry 299\nentry 300\nentry 300\n"), "append_history");
    expect(append_history(1, "missing") == ENOENT && read_history("missing") == ENOENT, "a file that is missing");
    expect(history_truncate_file("missing", 1) == ENOENT && write_history("missing/all") == ENOENT, "a folder that is missing");
    expect(chmod("all", 0640) == 0 && symlink("all", "link") == 0 && write_history("link") == 0, "write_history to a link");
    expect(lstat("link", &it) == 0 && S_ISLNK(it.st_mode), "the link stays");
    expect(stat("all", &it) == 0 && (it.st_mode & 0777) == 0640 && it.st_size == 2892, "its file has rights and text");
    clear_history();
    expect(read_history_range("all", 10, 12) == 0 && history_length == 2, "a range");
    expect(is_entry(history_get(1), "entry 11"), "its first entry");
    expect(write_history("/dev/full") != 0 && stat("/dev/full", &it) == 0 && S_ISCHR(it.st_mode), "a device that is full");
}

static void times(void)
{
    clear_history();
    history_comment_char = '#';
    history_write_timestamps = 1;
    add_history("one");
    add_history_time("#1000");
    add_history("two");
    expect(history_get_time(history_get(2)) > 1000, "an entry has the time at which it was added");
    add_history_time("#2000");
    expect(write_history("times") == 0 && is_file("times", "#1000\none\n#2000\ntwo\n"), "times are written");
    clear_history();
    expect(read_history("times") == 0 && history_length == 2 && history_get_time(history_get(1)) == 1000, "times are read");
    expect(history_truncate_file("times", 1) == 0 && is_file("times", "#2000\ntwo\n"), "a time belongs to its entry");
}

static int call_history(void)
{
    walk();
    change();
    files();
    times();
    clear_history();
    printf("%d passed, %d failed\n", passed, failed);
    return failed > 0;
}

int main(int count, char **words)
{
    const char *what = count == 2 ? words[1] : "";
    if (strcmp(what, "lines") == 0) return read_lines();
    if (strcmp(what, "leaves") == 0) return read_leaving();
    if (strcmp(what, "events") == 0) return read_events();
    if (strcmp(what, "history") == 0) return call_history();
    fputs("usage: readline_lines lines|leaves|events|history\n", stderr);
    return 2;
}
