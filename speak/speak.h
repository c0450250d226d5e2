/* speak answers calls of the engine, one a line (docs/VECTORS.md), by the calls of include/dzervolat.h. This is what its files share. */
#ifndef SPEAK_H
#define SPEAK_H

#include "dzervolat.h"

#include <stdbool.h>

/* The limits of the line protocol. */
enum {
    LONGEST_LINE = 300000,          /* characters of a call, its newline not counted */
    MOST_OCTETS = LONGEST_LINE / 2, /* more than such a line can hold, two digits each */
    MOST_ROOM = 70000,              /* octets of a buffer that is written into */
    MOST_COUNTED = 400              /* candidates of a list, messages of a burst: more than the library takes, so that its refusal can be seen */
};

/* The clock that the lines speak of: its settings, and the words that are lent to the library. */
struct clock {
    uint64_t own[DZ_OWN_WORDS]; /* our own quality; our clockIdentity is its DZ_C_GRANDMASTER */
    uint8_t domain;
    uint16_t magic;
    uint64_t ports[DZ_PORTS_WORDS];
    uint64_t links[DZ_LINKS_WORDS];
    uint64_t recording[DZ_RECORDING_WORDS];
    uint8_t open[DZ_BLOCK_OCTETS]; /* the recording's open block */
};

extern const struct clock fresh_clock;

/* ---- What is in a line (line.c) ------------------------------------------------------------------------------------------------- */

/* Characters of a line, or all of it. They are of any kind, a 0 too. */
struct token {
    const char *text;
    size_t length;
};

/* A line whose tokens are taken from the left. Where one is missing or malformed the line is bad from then on, and what is taken of it means
   nothing: a call takes all that it wants, and asks line_is_whole before it does anything with it. */
struct line {
    const char *rest; /* what is not taken yet, up to the end */
    const char *end;
    bool over; /* the last token was taken */
    bool bad;
};

struct octets {
    size_t length;
    uint8_t octet[MOST_OCTETS];
};

/* What a number may be: of a type, a clockIdentity, 0 or 1, a count, a buffer's room. END is none: it ends a row of fields. */
enum kind { END, U8, U16, U32, U64, I8, I16, I64, CLOCK, SWITCH, COUNT, ROOM };

/* A number of a call or an answer: what it may be, and in which word the library has it. */
struct field {
    enum kind kind;
    int word;
};

struct line line_of(struct token text);
struct token take_token(struct line *line);
bool token_is(struct token token, const char *word);
uint64_t take_number(struct line *line, enum kind kind);
void take_fields(struct line *line, const struct field *fields, uint64_t *words);
void take_octets(struct line *line, struct octets *octets);
void take_more_octets(struct line *line, struct octets *octets);
bool line_is_whole(const struct line *line);

/* ---- Which numbers make up what (fields.c) -------------------------------------------------------------------------------------- */

extern const struct field header_fields[], candidate_fields[], set_fields[];
const struct field *body_fields(uint64_t type);
const struct field *link_message_fields(uint64_t number);

/* ---- Answers (show.c) ----------------------------------------------------------------------------------------------------------- */

/* An answer begins with what is said; each thing that is shown follows behind a blank. */
void say(const char *words);
void show_word(const char *word);
void show_number(uint64_t number);
void show_fields(const struct field *fields, const uint64_t *words);
void show_octets(const uint8_t *octets, size_t length);
void to_octets(uint64_t number, uint8_t *octets, size_t length);
void show_candidates(uint64_t count, const uint64_t *candidates);
void show_link_message(const uint64_t *message);
bool accepted(dz_answer answer);
void say_ok_or_refused(dz_answer answer);
void show_ok_or_refused(dz_answer answer);
bool found_one(dz_answer answer, const uint64_t *found, const char *none);
void end_answer(void);
void send_answers(void);

/* ---- What is written into (buffer.c) -------------------------------------------------------------------------------------------- */

uint8_t *unwritten(uint64_t room);
void say_written(dz_answer answer, uint64_t written, const uint8_t *out, uint64_t room);

/* ---- Standard input (input.c) --------------------------------------------------------------------------------------------------- */

bool next_line(struct token *line);

/* ---- The calls ------------------------------------------------------------------------------------------------------------------ */

/* Answers the line behind its name. False where the line is no such call: then nothing is said, and nothing has changed. */
typedef bool call(struct clock *clock, struct line *line);

call call_fresh, call_clock, call_domain, call_magic, call_own, call_interval, call_linksettings; /* settings.c */
call call_read, call_lookup, call_walk, call_suffix, call_linkmessage, call_origin;               /* reading.c */
call call_write, call_signal, call_suffixtlv;                                                     /* writing.c */
call call_take, call_burst, call_candidates, call_best, call_records;                             /* records.c */
call call_compare, call_rank, call_merge, call_decide, call_all, call_parent;                     /* ranking.c */
call call_record, call_trace, call_recording, call_replay;                                        /* traces.c */
call call_import, call_export;                                                                    /* captures.c */
call call_link;                                                                                   /* links.c */
call call_delay;                                                                                  /* delay.c */

#endif
