/* why: what changed along a trace, when, and which record brought it about. It reads a trace on standard input, and prints a line for every change of the
   parent and of a port's decision, then what every port does at the last record's time.

       why [CLOCK [INTERVAL]] <TRACE

   CLOCK is our clockIdentity (0 if it is not given), INTERVAL the exponent of every port's announce interval (0): the settings under which the trace was
   recorded. The domain is 0, the magic 001's example, our own quality that of a clock without a better source.

   The rule: decisions and the parent are asked for at each record's time, behind the record, and before it at each moment since the record before it at which
   a sender stops counting because its older Announce leaves the window. So whoever falls silent is told at its own time. */
#include "dzervolat.h"

#include <inttypes.h>
#include <stdbool.h>
#include <stdio.h>
#include <stdlib.h>
#include <string.h>

static const uint64_t second = 1000000000;

/* The clock that the trace is run on: its settings, its words, and what was told of it last. */
struct clock {
    uint64_t own[DZ_OWN_WORDS];
    uint64_t ports[DZ_PORTS_WORDS];
    uint8_t decisions[DZ_PORTS];
    uint64_t parent[DZ_FOUND_WORDS];
};

/* What brought a change about: the sender on a port, and the sequenceId of its Announce, or that it fell silent. */
struct cause {
    uint64_t clock, sender_port, port, sequence;
    bool silent;
};

/* ---- The trace ----------------------------------------------------------------------------------------------------------------- */

struct trace {
    uint8_t *octets;
    size_t length;
};

/* All of standard input. */
static struct trace read_trace(void)
{
    struct trace trace = {malloc(DZ_BLOCK_OCTETS), 0};
    size_t room = DZ_BLOCK_OCTETS, got;
    while (trace.octets != NULL && (got = fread(trace.octets + trace.length, 1, room - trace.length, stdin)) > 0) {
        trace.length += got;
        if (trace.length == room) trace.octets = realloc(trace.octets, room *= 2);
    }
    if (trace.octets == NULL) {
        fputs("why: the trace is too long for this machine's memory\n", stderr);
        exit(EXIT_FAILURE);
    }
    return trace;
}

/* ---- What is told -------------------------------------------------------------------------------------------------------------- */

/* Hours, minutes, seconds and nanoseconds of the trace's clock. */
static void tell_time(uint64_t time)
{
    uint64_t s = time / second;
    printf("%02" PRIu64 ":%02" PRIu64 ":%02" PRIu64 ".%09" PRIu64 " ", s / 3600, s / 60 % 60, s % 60, time % second);
}

static void tell_parent(const uint64_t parent[DZ_FOUND_WORDS])
{
    const uint64_t *c = parent + DZ_FOUND_CANDIDATE;
    if (parent[DZ_FOUND]) printf("%016" PRIx64 "-%" PRIu64 " on port %" PRIu64, c[DZ_C_SENDER_CLOCK], c[DZ_C_SENDER_PORT], c[DZ_C_PORT]);
    else printf("our own clock");
}

static void tell_cause(const struct cause *cause)
{
    if (!cause->silent) printf(", by Announce %" PRIu64 " of %016" PRIx64 "-%" PRIu64 " on port %" PRIu64 "\n", cause->sequence, cause->clock, cause->sender_port, cause->port);
    else printf(", %016" PRIx64 "-%" PRIu64 " on port %" PRIu64 " fell silent\n", cause->clock, cause->sender_port, cause->port);
}

/* Two parents are the same where they are the same sender, heard on the same port. */
static bool is_same(const uint64_t a[DZ_FOUND_WORDS], const uint64_t b[DZ_FOUND_WORDS])
{
    static const int told[] = {DZ_C_SENDER_CLOCK, DZ_C_SENDER_PORT, DZ_C_PORT};
    bool same = a[DZ_FOUND] == b[DZ_FOUND];
    for (size_t i = 0; i < sizeof told / sizeof *told; i++) same = same && a[DZ_FOUND_CANDIDATE + told[i]] == b[DZ_FOUND_CANDIDATE + told[i]];
    return same;
}

/* ---- Asking -------------------------------------------------------------------------------------------------------------------- */

/* Asks for every decision and the parent at a time. */
static void ask(const struct clock *clock, uint64_t time, uint8_t decisions[DZ_PORTS], uint64_t parent[DZ_FOUND_WORDS])
{
    uint64_t list[DZ_LIST_WORDS];
    dz_decide_all(clock->ports, time, clock->own, decisions, list);
    dz_parent(clock->own, list, parent);
}

/* Asks, and tells what has changed. */
static void look(struct clock *clock, uint64_t time, const struct cause *cause)
{
    uint8_t decisions[DZ_PORTS];
    uint64_t parent[DZ_FOUND_WORDS];
    ask(clock, time, decisions, parent);
    if (!is_same(clock->parent, parent)) {
        tell_time(time);
        printf("parent: ");
        tell_parent(clock->parent);
        printf(" -> ");
        tell_parent(parent);
        tell_cause(cause);
    }
    for (int p = 1; p <= DZ_PORTS; p++) {
        if (clock->decisions[p - 1] == decisions[p - 1]) continue;
        tell_time(time);
        printf("port %d: %s -> %s", p, dz_decision_text(clock->decisions[p - 1]), dz_decision_text(decisions[p - 1]));
        tell_cause(cause);
    }
    memcpy(clock->decisions, decisions, sizeof decisions);
    memcpy(clock->parent, parent, sizeof parent);
}

/* ---- Who falls silent ---------------------------------------------------------------------------------------------------------- */

/* The first moment behind `time`, and not behind `until`, at which a sender that counts stops doing so, and who it is: the first by port and slot where
   several do. False where there is none. A sender counts for four intervals behind its older Announce. */
static bool next_silence(const struct clock *clock, uint64_t time, uint64_t until, uint64_t *moment, struct cause *who)
{
    bool any = false;
    for (uint64_t p = 1; p <= DZ_PORTS; p++) {
        uint64_t status[DZ_STATUS_WORDS], r[DZ_RECORD_WORDS], found[DZ_FOUND_WORDS];
        dz_status(clock->ports, p, status);
        uint64_t window = (second / 2) << ((int64_t)status[DZ_STATUS_INTERVAL] + 3);
        for (size_t slot = 0; slot < DZ_SLOTS; slot++) {
            if (dz_candidate(clock->ports, p, slot, time, found) != DZ_OK || !found[DZ_FOUND]) continue;
            dz_record(clock->ports, p, slot, r);
            uint64_t end = r[DZ_R_OLDER] + window + 1;
            if (end < window || end > until || (any && end >= *moment)) continue;
            any = true;
            *moment = end;
            *who = (struct cause){r[DZ_R_SENDER_CLOCK], r[DZ_R_SENDER_PORT], p, 0, true};
        }
    }
    return any;
}

/* Tells all that falls silent behind `time` and not behind `until`. */
static void pass(struct clock *clock, uint64_t time, uint64_t until)
{
    struct cause who;
    while (next_silence(clock, time, until, &time, &who)) look(clock, time, &who);
}

/* ---- The run ------------------------------------------------------------------------------------------------------------------- */

/* Takes a record's message, and tells what that changed. What is refused changes nothing. */
static void take(struct clock *clock, const uint8_t *block, const uint64_t entry[DZ_FOUND_ENTRY_WORDS])
{
    uint64_t message[DZ_MESSAGE_WORDS], tail[DZ_TAIL_WORDS];
    const uint8_t *octets = block + entry[DZ_N_AT];
    size_t length = entry[DZ_N_LENGTH];
    if (dz_take(clock->ports, entry[DZ_N_PORT], entry[DZ_N_TIME], octets, length, 0, clock->own[DZ_C_GRANDMASTER], DZ_EXAMPLE_MAGIC) != DZ_OK) return;
    dz_read(octets, length, DZ_EXAMPLE_MAGIC, message, tail);
    look(clock, entry[DZ_N_TIME], &(struct cause){message[DZ_M_CLOCK], message[DZ_M_PORT], entry[DZ_N_PORT], message[DZ_M_SEQUENCE], false});
}

/* Runs the trace, record by record: the last one's time. */
static uint64_t run(struct clock *clock, const struct trace *trace)
{
    uint64_t time = 0, entry[DZ_FOUND_ENTRY_WORDS];
    for (size_t b = 0; b < trace->length; b += DZ_BLOCK_OCTETS) {
        const uint8_t *block = trace->octets + b;
        for (uint64_t at = 0; dz_trace_walk(block, at, entry) == DZ_OK && entry[DZ_FOUND]; at = entry[DZ_N_END]) {
            pass(clock, time, entry[DZ_N_TIME]);
            time = entry[DZ_N_TIME];
            take(clock, block, entry);
        }
    }
    return time;
}

/* The settings, from the arguments; false where they are none. */
static bool set(struct clock *clock, int count, char **arguments)
{
    char *end = "";
    uint64_t identity = count > 1 ? strtoull(arguments[1], &end, 0) : 0;
    if (count > 3 || *end != '\0') return false;
    long k = count > 2 ? strtol(arguments[2], &end, 10) : 0;
    if (*end != '\0' || k < INT8_MIN || k > INT8_MAX) return false;
    memcpy(clock->own, (const uint64_t[])DZ_OWN_DEFAULT(identity), sizeof clock->own);
    for (uint64_t p = 1; p <= DZ_PORTS; p++)
        if (dz_set_interval(clock->ports, p, (int8_t)k) != DZ_OK) return false;
    return true;
}

int main(int count, char **arguments)
{
    static struct clock clock;
    static uint64_t replayed[DZ_PORTS_WORDS];
    uint64_t last;
    if (!set(&clock, count, arguments)) {
        fputs("usage: why [CLOCK [INTERVAL]] <TRACE, with an INTERVAL from -3 to 4\n", stderr);
        return EXIT_FAILURE;
    }
    struct trace trace = read_trace();
    memcpy(replayed, clock.ports, sizeof replayed);
    if (dz_replay(replayed, trace.octets, trace.length, 0, clock.own[DZ_C_GRANDMASTER], DZ_EXAMPLE_MAGIC, &last) != DZ_OK) {
        printf("refused %d\n", DZ_REFUSED_BLOCK);
        return EXIT_SUCCESS;
    }
    ask(&clock, 0, clock.decisions, clock.parent);
    uint64_t time = run(&clock, &trace);
    if (time != last || memcmp(clock.ports, replayed, sizeof replayed) != 0) {
        fputs("why: record by record the trace gives another clock than in one piece\n", stderr);
        return EXIT_FAILURE;
    }
    for (int p = 1; p <= DZ_PORTS; p++) printf("%d %s\n", p, dz_decision_text(clock.decisions[p - 1]));
    free(trace.octets);
    return EXIT_SUCCESS;
}
