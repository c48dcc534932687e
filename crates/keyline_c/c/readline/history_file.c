/* The history's files: a line in each row. A new file can be read by its owner alone. An old one is replaced as a whole, so
 * it is left as it was if the disk is full; it keeps its rights, and a link to it stays. */
#include "internal.h"
#include <errno.h>
#include <fcntl.h>
#include <sys/stat.h>
#include <unistd.h>

int history_write_timestamps;
char history_comment_char;

/* Without a name, ~/.history. */
static char *path_of(const char *name)
{
    const char *home = getenv("HOME");
    struct bytes path = {0};
    if (name != NULL) return copy_of(name, strlen(name));
    bytes_add_text(&path, home != NULL ? home : ".");
    bytes_add_text(&path, "/.history");
    return path.at;
}

static bool is_time(const char *row)
{
    return history_comment_char != 0 && row[0] == history_comment_char && row[1] >= '0' && row[1] <= '9';
}

/* ---- reading ---- */

/* The row without its end. */
static void trim(char *row, ssize_t count)
{
    if (row[count - 1] == '\n') row[--count] = 0;
    if (count > 0 && row[count - 1] == '\r') row[--count] = 0;
}

static void read_rows(FILE *file, int from, int to)
{
    char *row = NULL, *time = NULL;
    size_t size = 0;
    ssize_t count;
    for (int i = 0; (to < 0 || i < to) && (count = getline(&row, &size, file)) > 0;) {
        trim(row, count);
        if (is_time(row)) {
            free(time);
            time = copy_of(row, strlen(row));
            continue;
        }
        if (i++ >= from && row[0] != 0) {
            add_history(row);
            add_history_time(time);
        }
        free(time);
        time = NULL;
    }
    free(time);
    free(row);
}

/* The rows from one number to the one before another; to the last if that is negative. */
int read_history_range(const char *name, int from, int to)
{
    char *path = path_of(name);
    FILE *file = fopen(path, "r");
    int error = file == NULL ? errno : 0;
    free(path);
    if (file == NULL) return error;
    read_rows(file, from, to);
    if (ferror(file)) error = EIO;
    fclose(file);
    return error;
}

int read_history(const char *name)
{
    return read_history_range(name, 0, -1);
}

/* ---- writing ---- */

static int write_all(int file, const char *at, size_t count)
{
    while (count > 0) {
        ssize_t written = write(file, at, count);
        if (written < 0 && errno == EINTR) continue;
        if (written < 0) return errno;
        at += written;
        count -= (size_t)written;
    }
    return 0;
}

/* Writes a text to a file that is opened so, and closes it. */
static int put(const char *path, int flags, mode_t rights, const struct bytes *text)
{
    int file = open(path, flags | O_WRONLY | O_CLOEXEC, rights), error;
    if (file < 0) return errno;
    error = write_all(file, text->at, text->length);
    if (close(file) != 0 && error == 0) error = errno;
    return error;
}

/* Replaces a regular file by way of a new one beside it. */
static int put_beside(const char *target, const struct stat *old, const struct bytes *text)
{
    struct bytes beside = {0};
    char number[32];
    int error;
    snprintf(number, sizeof number, "-%ld.tmp", (long)getpid());
    bytes_add_text(&beside, target);
    bytes_add_text(&beside, number);
    error = put(beside.at, O_CREAT | O_EXCL, old->st_mode & 0777, text);
    if (error == 0) {
        chmod(beside.at, old->st_mode & 07777);
        if (chown(beside.at, old->st_uid, old->st_gid) != 0) error = errno;
        if (error == 0 && rename(beside.at, target) != 0) error = errno;
    }
    if (error != 0 && error != EEXIST) unlink(beside.at);
    free(beside.at);
    return error;
}

/* Makes a text the file's. What isn't a regular file, or can't be replaced, is written in its place. */
static int replace(const char *path, const struct bytes *text)
{
    struct stat old;
    char *target = realpath(path, NULL);
    bool is_regular = target != NULL && stat(target, &old) == 0 && S_ISREG(old.st_mode);
    int error = EACCES;
    if (is_regular && access(target, W_OK) != 0) error = errno;
    else if (is_regular) error = put_beside(target, &old, text);
    if (!is_regular || error == EPERM || error == EACCES || error == EEXIST || error == ENAMETOOLONG)
        error = put(path, O_CREAT | O_TRUNC, 0600, text);
    free(target);
    return error;
}

/* The entries from one on, as a file has them. */
static struct bytes rows_from(int first)
{
    HIST_ENTRY **list = history_list();
    struct bytes text = {0};
    for (int i = first < 0 ? 0 : first; i < history_length; i++) {
        if (history_write_timestamps && list[i]->timestamp != NULL) {
            bytes_add_text(&text, list[i]->timestamp);
            bytes_add_text(&text, "\n");
        }
        bytes_add_text(&text, list[i]->line);
        bytes_add_text(&text, "\n");
    }
    return text;
}

int write_history(const char *name)
{
    char *path = path_of(name);
    struct bytes text = rows_from(0);
    int error = replace(path, &text);
    free(text.at);
    free(path);
    return error;
}

/* The newest entries, behind those of a file that is there. */
int append_history(int count, const char *name)
{
    char *path = path_of(name);
    struct bytes text = rows_from(history_length - count);
    int error = put(path, O_APPEND, 0, &text);
    free(text.at);
    free(path);
    return error;
}

static int read_file(const char *path, struct bytes *text)
{
    char piece[4096];
    size_t count;
    FILE *file = fopen(path, "r");
    int error = file == NULL ? errno : 0;
    if (file == NULL) return error;
    while ((count = fread(piece, 1, sizeof piece, file)) > 0) bytes_add(text, piece, count);
    if (ferror(file)) error = EIO;
    fclose(file);
    return error;
}

/* Where the last entries begin. A row with a time belongs to the entry below it. */
static size_t last_rows(const struct bytes *text, int count)
{
    size_t place = text->length, start;
    while (place > 0) {
        for (start = place - 1; start > 0 && text->at[start - 1] != '\n'; start--);
        if (!is_time(text->at + start) && count-- <= 0) break;
        place = start;
    }
    return place;
}

/* Leaves so many entries in a file, the last. */
int history_truncate_file(const char *name, int count)
{
    char *path = path_of(name);
    struct bytes text = {0}, rest = {0};
    int error = read_file(path, &text);
    size_t first = error == 0 ? last_rows(&text, count) : 0;
    if (first > 0) {
        bytes_add(&rest, text.at + first, text.length - first);
        error = replace(path, &rest);
    }
    free(text.at);
    free(rest.at);
    free(path);
    return error;
}
