/* Lines of standard input: any octets, any length, and no wait for more than the line that is asked for. */
#define _POSIX_C_SOURCE 200809L
#include "speak.h"

#include <errno.h>
#include <stdio.h>
#include <stdlib.h>
#include <string.h>
#include <unistd.h>

/* Of a line that is too long for a call no more is kept than shows that it is, and whether it is a comment. */
enum { MOST_KEPT = LONGEST_LINE + 1, READ_AT_ONCE = 1 << 18 };

/* What was read and not yet handed out: from `first` up to `last`. */
static char waiting[MOST_KEPT + READ_AT_ONCE];
static size_t first, last;
static bool ended;

/* Reads what there is, at least one character; false at the end of the input. The answers so far go out first, since reading may have to wait,
   and whoever writes the next line may be waiting for them. */
static bool read_more(void)
{
    ssize_t count;
    send_answers();
    if (ended) return false;
    memmove(waiting, waiting + first, last - first);
    last -= first;
    first = 0;
    do count = read(STDIN_FILENO, waiting + last, sizeof waiting - last);
    while (count < 0 && errno == EINTR);
    if (count < 0) {
        perror("speak: standard input");
        exit(EXIT_FAILURE);
    }
    last += (size_t)count;
    ended = count == 0;
    return !ended;
}

/* The next line without its newline, which the last may lack; false where there is none. It stands until the next is asked for. */
bool next_line(struct token *line)
{
    size_t length = 0; /* of the line as far as it was searched for its newline */
    for (;;) {
        const char *text = waiting + first;
        const char *newline = memchr(text + length, '\n', last - first - length);
        if (newline != NULL) {
            *line = (struct token){text, (size_t)(newline - text)};
            first += line->length + 1;
            return true;
        }
        if (last - first > MOST_KEPT) last = first + MOST_KEPT;
        length = last - first;
        if (!read_more()) {
            *line = (struct token){waiting + first, length};
            first = last;
            return length > 0;
        }
    }
}
