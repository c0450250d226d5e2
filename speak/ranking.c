/* Data sets compared, candidates ranked, ports decided. */
#include "speak.h"

/* A ranked list to be lent: its count as the line has it, so that the library sees one above four, and as many candidates as a list has. Those
   past them must be well formed, and nobody looks at them. */
static void take_list(struct line *line, uint64_t list[DZ_LIST_WORDS])
{
    uint64_t past[DZ_CANDIDATE_WORDS];
    list[DZ_LIST_COUNT] = take_number(line, COUNT);
    for (uint64_t i = 0; i < list[DZ_LIST_COUNT]; i++) take_fields(line, candidate_fields, i < DZ_LIST_CANDIDATES ? list + DZ_LIST_AT(i) : past);
}

/* A port's best as dz_best would give it: `none`, or `best` and the candidate. */
static void take_best(struct line *line, uint64_t best[DZ_FOUND_WORDS])
{
    struct token word = take_token(line);
    best[DZ_FOUND] = token_is(word, "best");
    if (best[DZ_FOUND]) take_fields(line, candidate_fields, best + DZ_FOUND_CANDIDATE);
    else if (!token_is(word, "none")) line->bad = true;
}

static void show_list(const uint64_t list[DZ_LIST_WORDS])
{
    show_candidates(list[DZ_LIST_COUNT], list + DZ_LIST_FIRST);
}

/* ok LIST, or a refusal */
static void say_list(dz_answer answer, const uint64_t list[DZ_LIST_WORDS])
{
    if (!accepted(answer)) return;
    say("ok");
    show_list(list);
}

/* A comparison's word in the line protocol. */
static const char *comparison_word(uint64_t comparison)
{
    switch (comparison) {
    case DZ_A_BETTER: return "a";
    case DZ_B_BETTER: return "b";
    case DZ_A_BETTER_BY_TOPOLOGY: return "a-topology";
    case DZ_B_BETTER_BY_TOPOLOGY: return "b-topology";
    case DZ_ERROR_1: return "error-1";
    case DZ_ERROR_2: return "error-2";
    default: return "?";
    }
}

/* compare SET SET */
bool call_compare(struct clock *clock, struct line *line)
{
    (void)clock; /* all that is compared is in the line */
    uint64_t a[DZ_SET_WORDS], b[DZ_SET_WORDS], comparison;
    take_fields(line, set_fields, a);
    take_fields(line, set_fields, b);
    if (!line_is_whole(line)) return false;
    if (accepted(dz_compare(a, b, &comparison))) say(comparison_word(comparison));
    return true;
}

/* rank LIST */
bool call_rank(struct clock *clock, struct line *line)
{
    (void)clock;
    static uint64_t run[MOST_COUNTED * DZ_CANDIDATE_WORDS];
    uint64_t list[DZ_LIST_WORDS];
    uint64_t count = take_number(line, COUNT);
    for (uint64_t i = 0; i < count; i++) take_fields(line, candidate_fields, run + i * DZ_CANDIDATE_WORDS);
    if (!line_is_whole(line)) return false;
    say_list(dz_rank(run, count, list), list);
    return true;
}

/* merge LIST LIST */
bool call_merge(struct clock *clock, struct line *line)
{
    (void)clock;
    uint64_t a[DZ_LIST_WORDS] = {0}, b[DZ_LIST_WORDS] = {0}, list[DZ_LIST_WORDS];
    take_list(line, a);
    take_list(line, b);
    if (!line_is_whole(line)) return false;
    say_list(dz_merge(a, b, list), list);
    return true;
}

/* decide PORT LIST none, or decide PORT LIST best CANDIDATE */
bool call_decide(struct clock *clock, struct line *line)
{
    uint64_t list[DZ_LIST_WORDS] = {0}, best[DZ_FOUND_WORDS] = {0}, decision;
    uint64_t port = take_number(line, U8);
    take_list(line, list);
    take_best(line, best);
    if (!line_is_whole(line)) return false;
    if (accepted(dz_decide(clock->own, list, port, best, &decision))) say(dz_decision_text(decision));
    return true;
}

/* all TIME */
bool call_all(struct clock *clock, struct line *line)
{
    uint8_t decisions[DZ_PORTS];
    uint64_t list[DZ_LIST_WORDS];
    uint64_t now = take_number(line, U64);
    if (!line_is_whole(line)) return false;
    if (accepted(dz_decide_all(clock->ports, now, clock->own, decisions, list))) {
        say("ok");
        for (size_t i = 0; i < DZ_PORTS; i++) show_word(dz_decision_text(decisions[i]));
        show_list(list);
    }
    return true;
}

/* parent LIST */
bool call_parent(struct clock *clock, struct line *line)
{
    uint64_t list[DZ_LIST_WORDS] = {0}, found[DZ_FOUND_WORDS];
    take_list(line, list);
    if (!line_is_whole(line)) return false;
    if (found_one(dz_parent(clock->own, list, found), found, "none")) show_fields(candidate_fields, found + DZ_FOUND_CANDIDATE);
    return true;
}
