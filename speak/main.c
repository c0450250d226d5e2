/* speak: calls on standard input, one a line, and their answers on standard output (docs/VECTORS.md). */
#include "speak.h"

#include <stdio.h>
#include <stdlib.h>

/* How many characters of answers go together, where more lines wait to be answered. */
enum { SENT_AT_ONCE = 1 << 16 };

/* Every call by its name. */
static const struct {
    const char *name;
    call *answer;
} calls[] = {
    {"fresh", call_fresh},
    {"clock", call_clock},
    {"domain", call_domain},
    {"magic", call_magic},
    {"own", call_own},
    {"interval", call_interval},
    {"linksettings", call_linksettings},
    {"read", call_read},
    {"lookup", call_lookup},
    {"walk", call_walk},
    {"suffix", call_suffix},
    {"linkmessage", call_linkmessage},
    {"origin", call_origin},
    {"write", call_write},
    {"signal", call_signal},
    {"suffixtlv", call_suffixtlv},
    {"take", call_take},
    {"burst", call_burst},
    {"candidates", call_candidates},
    {"best", call_best},
    {"records", call_records},
    {"record", call_record},
    {"trace", call_trace},
    {"recording", call_recording},
    {"replay", call_replay},
    {"import", call_import},
    {"export", call_export},
    {"compare", call_compare},
    {"rank", call_rank},
    {"merge", call_merge},
    {"decide", call_decide},
    {"all", call_all},
    {"parent", call_parent},
    {"link", call_link},
    {"delay", call_delay},
};

/* Answers a line that is a call; false where it is none. */
static bool answer_call(struct clock *clock, struct token text)
{
    if (text.length > LONGEST_LINE) return false;
    struct line line = line_of(text);
    struct token name = take_token(&line);
    for (size_t i = 0; i < sizeof calls / sizeof *calls; i++) {
        if (token_is(name, calls[i].name)) return calls[i].answer(clock, &line);
    }
    return false;
}

/* Empty lines and comments have no answer. */
static bool is_silent(struct token text)
{
    return text.length == 0 || text.text[0] == '#';
}

int main(void)
{
    static struct clock clock;
    struct token text;
    if (dz_version() != DZ_VERSION) {
        fputs("speak: the library is of another version than its header\n", stderr);
        return EXIT_FAILURE;
    }
    setvbuf(stdout, NULL, _IOFBF, SENT_AT_ONCE);
    clock = fresh_clock;
    while (next_line(&text)) {
        if (is_silent(text)) continue;
        if (!answer_call(&clock, text)) say("bad line");
        end_answer();
    }
    return EXIT_SUCCESS;
}
