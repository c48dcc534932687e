/* A console: it reads lines and prints each. Ctrl-C gives a line up, and Ctrl-D ends. */
#include "line.h"
#include <errno.h>
#include <stdio.h>
#include <string.h>

/* Prints each line until the input ends; returns the status of the program. */
static int converse(struct line_reader *reader)
{
    for (;;) {
        struct line line = line_read(reader, "c> ");
        switch (line.status) {
        case LINE_READ: printf("got: %s\n", line.text); break;
        case LINE_INTERRUPTED: puts("(given up)"); break;
        case LINE_END: return 0;
        case LINE_FAILED: fprintf(stderr, "console: %s\n", line.text); return 1;
        }
        if (fflush(stdout) != 0) {
            fprintf(stderr, "console: standard output: %s\n", strerror(errno));
            return 1;
        }
    }
}

int main(int count, char **words)
{
    struct line_settings settings = {.mode = KEYLINE_EMACS};
    struct line_reader *reader;
    int status;
    if (count == 2 && strcmp(words[1], "vi") == 0) {
        settings.mode = KEYLINE_VI;
    } else if (count > 2 || (count == 2 && strcmp(words[1], "emacs") != 0)) {
        fputs("usage: console [emacs|vi]\n", stderr);
        return 2;
    }
    reader = line_open(&settings);
    if (reader == NULL) {
        fputs("console: out of memory\n", stderr);
        return 1;
    }
    status = converse(reader);
    line_close(reader);
    return status;
}
