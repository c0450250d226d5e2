/* Calls of include/dzervolat.h at random: on fresh, grown and random state, with whole and damaged messages, with words at the edges of their
   fields and past them.

   After each call all that was lent to it is compared with what it was: a refusal has changed nothing, an answer has changed only what it
   may, not a word beside it. A call gives no number that it cannot give. What can be said without the engine is said here over again: which words are
   too wide for their fields, which ports are none, which lists are ranked, which blocks of a trace are sound, which octets are a capture; then the number is the one
   of the header, in its order, and nothing is cut. Answers are held against one another where the rules tie them together.

   The calls are those of histories of several kinds: with all of it by chance, with senders that mostly repeat themselves (12), with runs of about as many
   candidates as may be ranked and bursts of about as many messages as one may hold (17), and on words that no call has left. fuzz [CALLS [SEED]] ends with status 1 at the first thing that is wrong. */
#include "dzervolat.h"

#include <inttypes.h>
#include <stdio.h>
#include <stdlib.h>
#include <string.h>

/* ---- chance -------------------------------------------------------------------------------------------------------------------- */

/* A seed makes the same calls whatever the compiler: no expression takes two numbers in an order that C leaves open. */
static uint64_t seed, chance;

static uint64_t any(void)
{
    chance ^= chance << 13;
    chance ^= chance >> 7;
    chance ^= chance << 17;
    return chance * 0x2545F4914F6CDD1D;
}

static uint64_t below(uint64_t n)
{
    return (any() >> 11) % n;
}

static int one_in(uint64_t n)
{
    return below(n) == 0;
}

/* A number at an edge of some field, or any. */
static uint64_t edge(void)
{
    static const int bits[] = {0, 1, 4, 7, 8, 15, 16, 30, 32, 39, 40, 47, 48, 50, 63};
    uint64_t power = (uint64_t)1 << bits[below(sizeof bits / sizeof *bits)], beside = below(3) - 1;
    if (one_in(4)) return any();
    return one_in(2) ? power + beside : beside - power;
}

/* Changes one of some octets. */
static void change_octet(uint8_t *o, size_t n)
{
    size_t i = below(n);
    o[i] = (uint8_t)any();
}

/* Sets one of some words to an edge. */
static void set_to_edge(uint64_t *w, size_t n)
{
    size_t i = below(n);
    w[i] = edge();
}

/* ---- what is lent -------------------------------------------------------------------------------------------------------------- */

/* Each thing that is lent stands in a box of its own, with words before and behind it that no call may touch. */
enum box { PORTS, LINKS, FRAME, FOLLOW, TAIL, OUT, RING, BURST, MESSAGE, LINK, RUN, LIST, OTHER, MERGED, TOGETHER, OWN, BEST, SET, RIVAL, EXCHANGE, RECORD, FOUND, STEP, DECISIONS, ANSWER,
    RECORDING, OPEN, BLOCK, TRACE, READER, REPLAYED, CAPTURE, FORM, PACKET, IMPORTED, EXPORTER, PACKETS, BOXES };
enum { GUARD = 4, LONGEST_RUN = 300, LONGEST_BURST = 300, OCTETS = 640, RING_OCTETS = 4096, TRACE_OCTETS = 12 * DZ_BLOCK_OCTETS, BOX_WORDS = DZ_BLOCK_OCTETS / 8 + GUARD };
enum { PACKETS_WORDS = (DZ_PACKETS_OCTETS + 7) / 8, CAPTURE_WORDS = DZ_CAPTURE_HEAD_OCTETS / 8 + TRACE_OCTETS / DZ_BLOCK_OCTETS * PACKETS_WORDS, CAPTURE_OCTETS = CAPTURE_WORDS * 8 };

static const size_t sizes[BOXES] = {
    [PORTS] = DZ_PORTS_WORDS, [LINKS] = DZ_LINKS_WORDS, [RUN] = LONGEST_RUN * DZ_CANDIDATE_WORDS, [FRAME] = OCTETS / 8, [FOLLOW] = OCTETS / 8, [TAIL] = OCTETS / 8, [OUT] = OCTETS / 8,
    [RING] = RING_OCTETS / 8, [BURST] = LONGEST_BURST * DZ_BURST_WORDS, [TRACE] = TRACE_OCTETS / 8, [REPLAYED] = DZ_PORTS_WORDS,
    [CAPTURE] = CAPTURE_WORDS, [IMPORTED] = TRACE_OCTETS / 8, [PACKETS] = PACKETS_WORDS,
};
static uint64_t memory[2 * DZ_PORTS_WORDS + DZ_LINKS_WORDS + LONGEST_RUN * DZ_CANDIDATE_WORDS + 4 * OCTETS / 8 + (RING_OCTETS + 2 * TRACE_OCTETS) / 8 + LONGEST_BURST * DZ_BURST_WORDS
    + CAPTURE_WORDS + PACKETS_WORDS + BOXES * BOX_WORDS + GUARD];
static uint64_t before[sizeof memory / 8];
static uint64_t *boxes[BOXES];
static uint8_t *changeable[BOXES]; /* the end of what a call may change, from the box's first octet on */
static uint64_t calls, answers[DZ_REFUSED_EXPORT + 1];
static const char *calling = "";

static void lay_out(void)
{
    uint64_t *next = memory + GUARD;
    for (int b = 0; b < BOXES; b++) {
        boxes[b] = next;
        next += (sizes[b] ? sizes[b] : BOX_WORDS - GUARD) + GUARD;
    }
}

static uint64_t *words(enum box b)
{
    return boxes[b];
}

static uint8_t *octets(enum box b)
{
    return (uint8_t *)boxes[b];
}

static const uint64_t *words_before(enum box b)
{
    return before + (boxes[b] - memory);
}

static void wrong(const char *what)
{
    printf("seed %" PRIu64 ", %s, call %" PRIu64 ": %s\n", seed, calling, calls, what);
    exit(1);
}

static void expect(int holds, const char *what)
{
    if (!holds) wrong(what);
}

static void fill(uint64_t *w, size_t n)
{
    for (size_t i = 0; i < n; i++) w[i] = any();
}

static int same_words(const uint64_t *a, const uint64_t *b, size_t n)
{
    return memcmp(a, b, n * sizeof *a) == 0;
}

/* A call begins: everything is as it is now, and it may change nothing but what is said after this. */
static void begin(const char *call)
{
    calling = call;
    memcpy(before, memory, sizeof memory);
    for (int b = 0; b < BOXES; b++) changeable[b] = octets(b);
}

static void may(enum box b, size_t n)
{
    changeable[b] = octets(b) + n * 8;
}

/* All answers together, so that one line tells whether two processors have given the same. */
static uint64_t digest;

static void digest_octets(const uint8_t *o, size_t n)
{
    for (uint64_t w = 0; n > 0; o += n < 8 ? n : 8, n -= n < 8 ? n : 8) {
        memcpy(&w, o, n < 8 ? n : 8);
        digest = (digest ^ w) * 0x9E3779B97F4A7C15;
        digest ^= digest >> 29;
    }
}

static void digest_answer(dz_answer answer)
{
    digest_octets((const uint8_t *)&answer, sizeof answer);
    for (int b = 0; b < BOXES && answer == DZ_OK; b++) digest_octets(octets(b), (size_t)(changeable[b] - octets(b)));
}

/* A call has returned: its number is one that it can give, and what it has changed is what it may change. */
static dz_answer end(dz_answer answer, uint32_t given)
{
    const uint8_t *at = (const uint8_t *)memory, *now, *stop = (const uint8_t *)(memory + sizeof memory / 8);
    calls++;
    uint64_t number = dz_number(answer);
    int placed = number == DZ_REFUSED_TLV || number == DZ_REFUSED_WRBAD;
    expect(number <= DZ_REFUSED_EXPORT, "a number past 22");
    answers[number]++;
    expect(given >> number & 1, "a number that it cannot give");
    expect(placed ? dz_place(answer) >= 44 && dz_place(answer) < 65536 : dz_place(answer) == 0, "a place that its number has not");
    for (int b = 0; b <= BOXES; b++, at = now) {
        const uint8_t *to = b < BOXES ? octets(b) : stop;
        now = b == BOXES ? stop : answer ? to : changeable[b];
        expect(!memcmp(at, (const uint8_t *)before + (at - (const uint8_t *)memory), (size_t)(to - at)), answer ? "a refusal has changed what was lent" : "more has changed than may");
    }
    digest_answer(answer);
    return answer;
}

/* The numbers that a call can give. */
#define CAN(n) (1u << (n))
#define READING (CAN(DZ_OK) | CAN(DZ_REFUSED_SHORT) | CAN(DZ_REFUSED_VERSION) | CAN(DZ_REFUSED_TYPE) | CAN(DZ_REFUSED_LENGTH) | CAN(DZ_REFUSED_STAMP) | CAN(DZ_REFUSED_TLV) | CAN(DZ_REFUSED_WRBAD))

/* ---- fields -------------------------------------------------------------------------------------------------------------------- */

/* A number of so many octets, written and read. */
static void put(uint8_t *o, size_t n, uint64_t w)
{
    while (n > 0) o[--n] = (uint8_t)w, w >>= 8;
}

static uint64_t get(const uint8_t *o, size_t n)
{
    uint64_t w = 0;
    for (size_t i = 0; i < n; i++) w = w << 8 | o[i];
    return w;
}

/* How many bits of a word its field can hold, place by place; 0 for a word that is not looked at. Ports of ours are told apart from fields. */
enum { ANY = 64, SIGNED = 128, WIDTH = 127 };
#define QUALITY [DZ_C_PRIORITY1] = 8, [DZ_C_CLASS] = 8, [DZ_C_ACCURACY] = 8, [DZ_C_VARIANCE] = 16, [DZ_C_PRIORITY2] = 8, [DZ_C_GRANDMASTER] = ANY
#define SENDER [DZ_C_STEPS] = 16, [DZ_C_SENDER_CLOCK] = ANY, [DZ_C_SENDER_PORT] = 16
#define HEADER [DZ_M_TYPE] = 4, [DZ_M_TRANSPORT] = 4, [DZ_M_DOMAIN] = 8, [DZ_M_FLAGS] = 16, [DZ_M_CORRECTION] = ANY, [DZ_M_CLOCK] = ANY, [DZ_M_PORT] = 16, \
    [DZ_M_SEQUENCE] = 16, [DZ_M_INTERVAL] = SIGNED | 8
#define STAMP [DZ_M_SECONDS] = 48, [DZ_M_NANOS] = 32
static const uint8_t own_bits[DZ_OWN_WORDS] = {QUALITY};
static const uint8_t candidate_bits[DZ_CANDIDATE_WORDS] = {QUALITY, SENDER, [DZ_C_PORT] = ANY, [DZ_C_WRFLAGS] = 16};
static const uint8_t set_bits[DZ_SET_WORDS] = {QUALITY, SENDER, [DZ_S_RECEIVER_CLOCK] = ANY, [DZ_S_RECEIVER_PORT] = 16};
static const uint8_t stamped_bits[DZ_MESSAGE_WORDS] = {HEADER, STAMP};
static const uint8_t resp_bits[DZ_MESSAGE_WORDS] = {HEADER, STAMP, [DZ_M_REQUESTER_CLOCK] = ANY, [DZ_M_REQUESTER_PORT] = 16};
static const uint8_t announce_bits[DZ_MESSAGE_WORDS] = {HEADER, STAMP, [DZ_M_UTC] = SIGNED | 16, [DZ_M_PRIORITY1] = 8, [DZ_M_CLASS] = 8, [DZ_M_ACCURACY] = 8,
    [DZ_M_VARIANCE] = 16, [DZ_M_PRIORITY2] = 8, [DZ_M_GRANDMASTER] = ANY, [DZ_M_STEPS] = 16, [DZ_M_SOURCE] = 8};
static const uint8_t signaling_bits[DZ_MESSAGE_WORDS] = {HEADER, [DZ_M_TARGET_CLOCK] = ANY, [DZ_M_TARGET_PORT] = 16};
static const uint8_t bare_bits[DZ_LINK_MESSAGE_WORDS] = {[DZ_L_NUMBER] = 16};
static const uint8_t calibrate_bits[DZ_LINK_MESSAGE_WORDS] = {[DZ_L_NUMBER] = 16, [DZ_L_PATTERN] = 8, [DZ_L_RETRY] = 8, [DZ_L_PERIOD] = 32};
static const uint8_t calibrated_bits[DZ_LINK_MESSAGE_WORDS] = {[DZ_L_NUMBER] = 16, [DZ_L_TX] = ANY, [DZ_L_RX] = ANY};
static const uint8_t exchange_bits[DZ_EXCHANGE_WORDS] = {[DZ_E_T1_SECONDS] = 48, [DZ_E_T1_NANOS] = 32, [DZ_E_SYNC] = SIGNED | 48, [DZ_E_FOLLOW] = SIGNED | 48,
    [DZ_E_T2_SECONDS] = 48, [DZ_E_T2_NANOS] = 32, [DZ_E_T2_FRACTION] = 16, [DZ_E_T3_SECONDS] = 48, [DZ_E_T3_NANOS] = 32, [DZ_E_T3_FRACTION] = 16, [DZ_E_T4_SECONDS] = 48,
    [DZ_E_T4_NANOS] = 32, [DZ_E_RESP] = SIGNED | 48, [DZ_E_MASTER_TX] = 50, [DZ_E_MASTER_RX] = 50, [DZ_E_SLAVE_TX] = 50, [DZ_E_SLAVE_RX] = 50, [DZ_E_ASYMMETRY] = SIGNED | 40};

static const uint8_t *message_bits(uint64_t type)
{
    switch (type) {
    case DZ_SYNC: case DZ_DELAY_REQ: case DZ_FOLLOW_UP: return stamped_bits;
    case DZ_DELAY_RESP: return resp_bits;
    case DZ_ANNOUNCE: return announce_bits;
    case DZ_SIGNALING: return signaling_bits;
    default: return NULL;
    }
}

static const uint8_t *link_bits(uint64_t number)
{
    if (number < DZ_LINK_SLAVE_PRESENT || number > DZ_LINK_WR_MODE_ON) return NULL;
    return number == DZ_LINK_CALIBRATE ? calibrate_bits : number == DZ_LINK_CALIBRATED ? calibrated_bits : bare_bits;
}

/* What a field would hold of a word. */
static uint64_t cut(uint64_t w, uint8_t bits)
{
    uint64_t most = bits % SIGNED >= ANY ? UINT64_MAX : ((uint64_t)1 << bits % SIGNED) - 1, half = most / 2 + 1;
    return bits & SIGNED ? ((w & most) ^ half) - half : w & most;
}

static int fits(const uint64_t *w, const uint8_t *bits, size_t n)
{
    for (size_t i = 0; i < n; i++)
        if (bits[i] && cut(w[i], bits[i]) != w[i]) return 0;
    return 1;
}

/* Makes one of some words too wide. What its field would hold of it stays, so that a call that cuts it would notice nothing. */
static void widen(uint64_t *w, const uint8_t *bits, size_t n)
{
    size_t i;
    do i = below(n);
    while ((bits[i] & WIDTH) == 0 || (bits[i] & WIDTH) == ANY);
    w[i] += (uint64_t)1 << ((bits[i] & WIDTH) + below((uint64_t)(ANY - (bits[i] & WIDTH))));
}

static int is_port(uint64_t port)
{
    return port >= 1 && port <= DZ_PORTS;
}

static int earlier(const uint64_t *a, const uint64_t *b)
{
    for (int i = 0; i < DZ_CANDIDATE_WORDS; i++)
        if (cut(a[i], candidate_bits[i]) != cut(b[i], candidate_bits[i])) return cut(a[i], candidate_bits[i]) < cut(b[i], candidate_bits[i]);
    return 0;
}

/* Four candidates at most, of ports that are ports, each port once, in rank order. Words past the count say nothing. */
static int is_ranked(const uint64_t *list)
{
    if (list[DZ_LIST_COUNT] > DZ_LIST_CANDIDATES) return 0;
    for (size_t i = 0; i < list[DZ_LIST_COUNT]; i++) {
        const uint64_t *c = list + DZ_LIST_AT(i);
        if (!is_port(c[DZ_C_PORT]) || (i > 0 && !earlier(c - DZ_CANDIDATE_WORDS, c))) return 0;
        for (size_t k = 0; k < i; k++)
            if (list[DZ_LIST_AT(k) + DZ_C_PORT] == c[DZ_C_PORT]) return 0;
    }
    return 1;
}

static int list_fits(const uint64_t *list)
{
    for (size_t i = 0; i < list[DZ_LIST_COUNT]; i++)
        if (!fits(list + DZ_LIST_AT(i), candidate_bits, DZ_CANDIDATE_WORDS)) return 0;
    return 1;
}

/* ---- blocks -------------------------------------------------------------------------------------------------------------------- */

/* The head of a block, its check first, and what stands before the message of a record, its time first. */
enum { NUMBER_AT = 2, FIRST_TIME_AT = 6, COUNT_AT = 14, RECORDS_AT = 16 };
enum { PORT_AT = 8, LENGTH_AT = 9, MESSAGE_AT = 11 };
static const uint64_t last_number = 4294967295;

static uint64_t sum(const uint8_t *b)
{
    uint64_t v = 0;
    for (size_t i = 0; i < DZ_BLOCK_OCTETS; i += 2) v += get(b + i, 2);
    return v;
}

/* Gives a block its check. */
static void seal(uint8_t *b)
{
    put(b, 2, 0);
    put(b, 2, 65535 - sum(b) % 65535);
}

/* A 16-bit word of a block but its check. */
static uint8_t *any_word(uint8_t *b)
{
    return b + 2 + 2 * below(DZ_BLOCK_OCTETS / 2 - 1);
}

/* Moves the check of a block into another word: the others are then a multiple of 65,535 by themselves, and the check is 65,535. With 0 in its place the
   sum is a multiple too, but 0 is no check. */
static void move_check(uint8_t *b)
{
    uint8_t *word = any_word(b);
    put(word, 2, (get(word, 2) + get(b, 2)) % 65535);
    put(b, 2, one_in(2) ? 0 : 65535);
}

/* Where the record ends that begins at an octet; 0 where no whole one of a port does. */
static size_t record_end(const uint8_t *b, uint64_t at)
{
    if (at > DZ_BLOCK_OCTETS - MESSAGE_AT || !is_port(b[at + PORT_AT])) return 0;
    size_t stop = at + MESSAGE_AT + get(b + at + LENGTH_AT, 2);
    return stop <= DZ_BLOCK_OCTETS ? stop : 0;
}

/* Whether octets are a block that may be replayed behind those that a reader has read; then the reader has read it too. */
static int is_sound(const uint8_t *b, size_t n, uint64_t reader[DZ_READER_WORDS])
{
    uint64_t t = reader[DZ_READER_LAST];
    size_t at = RECORDS_AT;
    if (n != DZ_BLOCK_OCTETS || get(b, 2) == 0 || sum(b) % 65535 != 0) return 0;
    uint64_t number = get(b + NUMBER_AT, 4), count = get(b + COUNT_AT, 2);
    if (number < reader[DZ_READER_NEXT] || count == 0 || get(b + FIRST_TIME_AT, 8) != get(b + at, 8)) return 0;
    for (uint64_t i = 0; i < count; i++) {
        if (!record_end(b, at) || get(b + at, 8) < t) return 0;
        t = get(b + at, 8);
        at = record_end(b, at);
    }
    while (at < DZ_BLOCK_OCTETS)
        if (b[at++] != 0) return 0;
    reader[DZ_READER_NEXT] = number + 1;
    reader[DZ_READER_LAST] = t;
    return 1;
}

/* How many of the octets from one on are its block. */
static size_t block_octets(size_t n, size_t at)
{
    return n - at < DZ_BLOCK_OCTETS ? n - at : DZ_BLOCK_OCTETS;
}

/* Whether octets are a trace that may be replayed, and its last record's time. */
static int is_trace(const uint8_t *trace, size_t n, uint64_t *last)
{
    uint64_t reader[DZ_READER_WORDS] = {0};
    for (size_t at = 0; at < n; at += DZ_BLOCK_OCTETS)
        if (!is_sound(trace + at, block_octets(n, at), reader)) return 0;
    *last = reader[DZ_READER_LAST];
    return 1;
}

/* Of a recording: whether a block is open, and whether a message of n octets fits into it. */
static int is_open(uint64_t next)
{
    return next >= RECORDS_AT;
}

static int has_place(uint64_t next, size_t n)
{
    return is_open(next) && next <= DZ_BLOCK_OCTETS && n + MESSAGE_AT <= DZ_BLOCK_OCTETS - next;
}

/* ---- captures ------------------------------------------------------------------------------------------------------------------ */

/* The head of a file, its magic first, and that of a packet, its seconds first; and where a frame has its type. */
enum { VERSION_AT = 4, REVISION_AT = 6, LINK_TYPE_AT = 20 };
enum { FRACTION_AT = 4, STORED_AT = 8, ORIGINAL_AT = 12 };
enum { TYPE_AT = 12, PTP = 0x88F7, BEFORE = DZ_PACKET_HEAD_OCTETS + DZ_FRAME_HEAD_OCTETS };
static const uint64_t micro_magic = 0xa1b2c3d4, nano_magic = 0xa1b23c4d, second_nanos = 1000000000, last_second = 4294967295;

/* A number as a file of a form has it. */
static uint64_t get_in(const uint64_t *form, const uint8_t *o, size_t n)
{
    uint64_t w = 0;
    if (!form[DZ_FORM_LITTLE]) return get(o, n);
    while (n > 0) w = w << 8 | o[--n];
    return w;
}

static void put_in(const uint64_t *form, uint8_t *o, size_t n, uint64_t w)
{
    if (!form[DZ_FORM_LITTLE]) put(o, n, w);
    else for (size_t i = 0; i < n; i++, w >>= 8) o[i] = (uint8_t)w;
}

/* Whether octets begin a file, and the form that they tell. */
static int is_head(const uint8_t *head, uint64_t form[DZ_FORM_WORDS])
{
    for (form[DZ_FORM_LITTLE] = 0; form[DZ_FORM_LITTLE] <= 1; form[DZ_FORM_LITTLE]++) {
        uint64_t magic_there = get_in(form, head, 4);
        if (magic_there != micro_magic && magic_there != nano_magic) continue;
        form[DZ_FORM_UNIT] = magic_there == micro_magic ? 1000 : 1;
        return get_in(form, head + VERSION_AT, 2) == 2 && get_in(form, head + REVISION_AT, 2) == 4 && get_in(form, head + LINK_TYPE_AT, 4) == 1;
    }
    return 0;
}

/* Whether octets are the head of a packet, and what it says. */
static int is_packet(const uint64_t *form, const uint8_t *head, uint64_t packet[DZ_PACKET_WORDS])
{
    uint64_t fraction = get_in(form, head + FRACTION_AT, 4) * form[DZ_FORM_UNIT];
    packet[DZ_K_TIME] = get_in(form, head, 4) * second_nanos + fraction;
    packet[DZ_K_STORED] = get_in(form, head + STORED_AT, 4);
    return fraction < second_nanos && packet[DZ_K_STORED] >= get_in(form, head + ORIGINAL_AT, 4);
}

/* Whether words are a form: any number but 0 is the order in which the lowest octet comes first. */
static int is_form(const uint64_t *form)
{
    return form[DZ_FORM_UNIT] == 1 || form[DZ_FORM_UNIT] == 1000;
}

/* Whether octets are a capture to their end. */
static int is_capture(const uint8_t *file, size_t n)
{
    uint64_t form[DZ_FORM_WORDS], packet[DZ_PACKET_WORDS];
    if (n < DZ_CAPTURE_HEAD_OCTETS || !is_head(file, form)) return 0;
    for (size_t at = DZ_CAPTURE_HEAD_OCTETS; at < n; at += DZ_PACKET_HEAD_OCTETS + packet[DZ_K_STORED])
        if (n - at < DZ_PACKET_HEAD_OCTETS || !is_packet(form, file + at, packet) || packet[DZ_K_STORED] > n - at - DZ_PACKET_HEAD_OCTETS) return 0;
    return 1;
}

static int is_ptp(const uint8_t *frame, size_t n)
{
    return n >= DZ_FRAME_HEAD_OCTETS && get(frame + TYPE_AT, 2) == PTP;
}

/* Whether a capture can hold the records of a sound block: all are of one port, and their seconds fit. */
static int is_writable(const uint8_t *b, uint64_t port)
{
    size_t at = RECORDS_AT;
    for (uint64_t left = get(b + COUNT_AT, 2); left > 0; left--, at = record_end(b, at))
        if (b[at + PORT_AT] != port || get(b + at, 8) / second_nanos > last_second) return 0;
    return 1;
}

/* The port of the first record of a block. */
static uint64_t first_port(const uint8_t *b)
{
    return b[RECORDS_AT + PORT_AT];
}

/* ---- the calls, and the number that each must give as far as it is known without the engine ------------------------------------ */

static uint64_t now;
static const uint64_t own_clock = 77;
static const uint8_t own_domain = 0;
static const uint16_t magic = DZ_EXAMPLE_MAGIC;

/* The number is 8 where a port is none, and not elsewhere. */
static dz_answer of_port(uint64_t port, dz_answer answer)
{
    expect((answer == DZ_REFUSED_PORT) == !is_port(port), "8 for a port, or a port that is none without 8");
    return answer;
}

static dz_answer must_be(dz_answer answer, dz_answer right)
{
    if (answer != right) printf("%s answers %" PRIu64 ", %s, and not %" PRIu64 "\n", calling, answer, dz_refusal_text(answer), right);
    expect(answer == right, "another number than the header says");
    return answer;
}

static dz_answer read_frame(enum box frame, size_t n)
{
    begin("dz_read");
    may(MESSAGE, DZ_MESSAGE_WORDS), may(FOUND, DZ_TAIL_WORDS);
    return end(dz_read(octets(frame), n, magic, words(MESSAGE), words(FOUND)), READING);
}

static dz_answer look_up(size_t n, uint16_t type)
{
    begin("dz_lookup");
    may(FOUND, DZ_FOUND_DATA_WORDS);
    return end(dz_lookup(octets(FRAME), n, type, magic, words(FOUND)), READING);
}

static dz_answer walk(size_t n, uint64_t from)
{
    begin("dz_walk");
    may(FOUND, DZ_FOUND_TLV_WORDS);
    return end(dz_walk(octets(FRAME), n, from, magic, words(FOUND)), READING);
}

static dz_answer suffix(size_t n)
{
    begin("dz_suffix");
    may(FOUND, DZ_FOUND_WRFLAGS_WORDS);
    return end(dz_suffix(octets(FRAME), n, magic, words(FOUND)), READING);
}

static dz_answer link_message(enum box frame, size_t n)
{
    begin("dz_link_message");
    may(FOUND, DZ_FOUND_LINK_WORDS);
    return end(dz_link_message(octets(frame), n, magic, words(FOUND)), READING);
}

static dz_answer origin(size_t sync, size_t follow)
{
    begin("dz_origin");
    may(FOUND, DZ_STAMP_WORDS);
    return end(dz_origin(octets(FRAME), sync, octets(FOLLOW), follow, magic, words(FOUND)), READING);
}

static dz_answer write_frame(size_t room, size_t tail)
{
    begin("dz_write");
    changeable[OUT] = octets(OUT) + room, may(ANSWER, 1);
    return end(dz_write(octets(OUT), room, words(MESSAGE), octets(TAIL), tail, magic, words(ANSWER)), CAN(DZ_OK) | CAN(DZ_REFUSED_FIELD) | CAN(DZ_REFUSED_ROOM));
}

static dz_answer write_link(size_t room)
{
    begin("dz_write_link");
    changeable[OUT] = octets(OUT) + room, may(ANSWER, 1);
    return end(dz_write_link(octets(OUT), room, words(MESSAGE), words(LINK), magic, words(ANSWER)), CAN(DZ_OK) | CAN(DZ_REFUSED_FIELD) | CAN(DZ_REFUSED_ROOM));
}

static void write_suffix(uint16_t flags)
{
    begin("dz_write_suffix");
    changeable[OUT] = octets(OUT) + DZ_SUFFIX_OCTETS;
    end(dz_write_suffix(flags, magic, octets(OUT)), CAN(DZ_OK));
}

static dz_answer status(uint64_t port)
{
    begin("dz_status");
    may(FOUND, DZ_STATUS_WORDS);
    return of_port(port, end(dz_status(words(PORTS), port, words(FOUND)), CAN(DZ_OK) | CAN(DZ_REFUSED_PORT)));
}

/* A port's last accepted time. */
static uint64_t last_of(uint64_t port)
{
    uint64_t told[DZ_STATUS_WORDS] = {0};
    dz_status(words(PORTS), port, told);
    return told[DZ_STATUS_LAST];
}

/* A question about a port's candidates is refused where its time is over, and not elsewhere. */
static dz_answer asked(uint64_t port, uint64_t t, dz_answer answer)
{
    if (is_port(port)) must_be(answer, t < last_of(port) ? DZ_REFUSED_BACKWARD : DZ_OK);
    return of_port(port, answer);
}

static dz_answer candidate(uint64_t port, size_t slot, uint64_t t)
{
    begin("dz_candidate");
    may(FOUND, DZ_FOUND_WORDS);
    return asked(port, t, end(dz_candidate(words(PORTS), port, slot, t, words(FOUND)), CAN(DZ_OK) | CAN(DZ_REFUSED_PORT) | CAN(DZ_REFUSED_BACKWARD)));
}

static dz_answer best(uint64_t port, uint64_t t)
{
    begin("dz_best");
    may(BEST, DZ_FOUND_WORDS);
    return asked(port, t, end(dz_best(words(PORTS), port, t, words(BEST)), CAN(DZ_OK) | CAN(DZ_REFUSED_PORT) | CAN(DZ_REFUSED_BACKWARD)));
}

static dz_answer record(uint64_t port, size_t slot)
{
    begin("dz_record");
    may(RECORD, DZ_RECORD_WORDS);
    return of_port(port, end(dz_record(words(PORTS), port, slot, words(RECORD)), CAN(DZ_OK) | CAN(DZ_REFUSED_PORT)));
}

static dz_answer take(uint64_t port, uint64_t t, size_t n)
{
    begin("dz_take");
    may(PORTS, DZ_PORTS_WORDS);
    return of_port(port, end(dz_take(words(PORTS), port, t, octets(FRAME), n, own_domain, own_clock, magic), READING | CAN(DZ_REFUSED_PORT) | CAN(DZ_REFUSED_DOMAIN) | CAN(DZ_REFUSED_OWN)
        | CAN(DZ_REFUSED_BACKWARD) | CAN(DZ_REFUSED_STALE) | CAN(DZ_REFUSED_FULL)));
}

static dz_answer take_burst(size_t lent, size_t n)
{
    begin("dz_take_burst");
    may(PORTS, DZ_PORTS_WORDS), may(BURST, n * DZ_BURST_WORDS);
    dz_answer answer = end(dz_take_burst(words(PORTS), octets(RING), lent, (uint64_t(*)[DZ_BURST_WORDS])words(BURST), n, own_domain, own_clock, magic), CAN(DZ_OK) | CAN(DZ_REFUSED_MANY));
    return must_be(answer, n > DZ_BURST_MOST ? DZ_REFUSED_MANY : DZ_OK);
}

/* The number that recording must give. */
static dz_answer recording_answer(uint64_t port, uint64_t t, size_t n)
{
    const uint64_t *w = words(RECORDING);
    if (!is_port(port)) return DZ_REFUSED_PORT;
    if (n > DZ_TRACE_LONGEST) return DZ_REFUSED_LONG;
    if (t < w[DZ_RECORDING_LAST]) return DZ_REFUSED_BACKWARD;
    return !has_place(w[DZ_RECORDING_END], n) && w[DZ_RECORDING_NEXT] > last_number ? DZ_REFUSED_MANY : DZ_OK;
}

static dz_answer trace_record(uint64_t port, uint64_t t, size_t n)
{
    dz_answer right = recording_answer(port, t, n);
    begin("dz_trace_record");
    may(RECORDING, DZ_RECORDING_WORDS), may(OPEN, DZ_BLOCK_OCTETS / 8), may(BLOCK, DZ_BLOCK_OCTETS / 8), may(ANSWER, 1);
    dz_answer answer = dz_trace_record(words(RECORDING), octets(OPEN), port, t, octets(FRAME), n, octets(BLOCK), words(ANSWER));
    return must_be(end(answer, CAN(DZ_OK) | CAN(DZ_REFUSED_PORT) | CAN(DZ_REFUSED_LONG) | CAN(DZ_REFUSED_BACKWARD) | CAN(DZ_REFUSED_MANY)), right);
}

static void trace_finish(void)
{
    begin("dz_trace_finish");
    may(BLOCK, DZ_BLOCK_OCTETS / 8), may(ANSWER, 1);
    end(dz_trace_finish(words(RECORDING), octets(OPEN), octets(BLOCK), words(ANSWER)), CAN(DZ_OK));
}

static void trace_walk(size_t block, uint64_t from)
{
    begin("dz_trace_walk");
    may(FOUND, DZ_FOUND_ENTRY_WORDS);
    end(dz_trace_walk(octets(TRACE) + block, from, words(FOUND)), CAN(DZ_OK));
}

/* A block of the trace, or so many octets from its first on. */
static dz_answer replay_block(size_t block, size_t n)
{
    uint64_t reader[DZ_READER_WORDS];
    memcpy(reader, words(READER), sizeof reader);
    int sound = is_sound(octets(TRACE) + block, n, reader);
    begin("dz_replay_block");
    may(REPLAYED, DZ_PORTS_WORDS), may(READER, DZ_READER_WORDS);
    dz_answer answer = dz_replay_block(words(REPLAYED), words(READER), octets(TRACE) + block, n, own_domain, own_clock, magic);
    must_be(end(answer, CAN(DZ_OK) | CAN(DZ_REFUSED_BLOCK)), sound ? DZ_OK : DZ_REFUSED_BLOCK);
    expect(same_words(words(READER), reader, DZ_READER_WORDS), "a reader that has read another block");
    return answer;
}

static dz_answer replay(size_t n)
{
    uint64_t last = 0;
    int sound = is_trace(octets(TRACE), n, &last);
    begin("dz_replay");
    may(REPLAYED, DZ_PORTS_WORDS), may(ANSWER, 1);
    dz_answer answer = end(dz_replay(words(REPLAYED), octets(TRACE), n, own_domain, own_clock, magic, words(ANSWER)), CAN(DZ_OK) | CAN(DZ_REFUSED_BLOCK));
    must_be(answer, sound ? DZ_OK : DZ_REFUSED_BLOCK);
    expect(!sound || words(ANSWER)[0] == last, "another time than the last record's");
    return answer;
}

static dz_answer capture_head(void)
{
    uint64_t form[DZ_FORM_WORDS];
    int right = is_head(octets(CAPTURE), form);
    begin("dz_capture_head");
    may(FORM, DZ_FORM_WORDS);
    dz_answer answer = must_be(end(dz_capture_head(octets(CAPTURE), words(FORM)), CAN(DZ_OK) | CAN(DZ_REFUSED_PCAP)), right ? DZ_OK : DZ_REFUSED_PCAP);
    expect(!right || same_words(words(FORM), form, DZ_FORM_WORDS), "another form");
    return answer;
}

/* The packet at an octet of the file. */
static dz_answer capture_packet(size_t at)
{
    uint64_t packet[DZ_PACKET_WORDS];
    int right = is_form(words(FORM)) && is_packet(words(FORM), octets(CAPTURE) + at, packet);
    begin("dz_capture_packet");
    may(PACKET, DZ_PACKET_WORDS);
    dz_answer answer = end(dz_capture_packet(words(FORM), octets(CAPTURE) + at, words(PACKET)), CAN(DZ_OK) | CAN(DZ_REFUSED_PCAP));
    must_be(answer, right ? DZ_OK : DZ_REFUSED_PCAP);
    expect(!right || same_words(words(PACKET), packet, DZ_PACKET_WORDS), "another packet");
    return answer;
}

/* The number that recording a frame must give. */
static dz_answer frame_answer(uint64_t port, uint64_t t, size_t n)
{
    return is_ptp(octets(FRAME), n) ? recording_answer(port, t, n - DZ_FRAME_HEAD_OCTETS) : DZ_OK;
}

static dz_answer capture_record(uint64_t port, uint64_t t, size_t n)
{
    dz_answer right = frame_answer(port, t, n);
    begin("dz_capture_record");
    if (is_ptp(octets(FRAME), n)) may(RECORDING, DZ_RECORDING_WORDS), may(OPEN, DZ_BLOCK_OCTETS / 8), may(BLOCK, DZ_BLOCK_OCTETS / 8);
    may(ANSWER, 1);
    dz_answer answer = dz_capture_record(words(RECORDING), octets(OPEN), port, t, octets(FRAME), n, octets(BLOCK), words(ANSWER));
    return must_be(end(answer, CAN(DZ_OK) | CAN(DZ_REFUSED_PORT) | CAN(DZ_REFUSED_LONG) | CAN(DZ_REFUSED_BACKWARD) | CAN(DZ_REFUSED_MANY)), right);
}

static dz_answer import(size_t room, uint64_t port, size_t n)
{
    begin("dz_import");
    changeable[IMPORTED] = octets(IMPORTED) + room, may(ANSWER, 1);
    dz_answer answer = dz_import(octets(IMPORTED), room, port, octets(CAPTURE), n, words(ANSWER));
    return end(answer, CAN(DZ_OK) | CAN(DZ_REFUSED_PCAP) | CAN(DZ_REFUSED_PORT) | CAN(DZ_REFUSED_LONG) | CAN(DZ_REFUSED_BACKWARD) | CAN(DZ_REFUSED_ROOM));
}

static dz_answer export(size_t room, size_t n)
{
    begin("dz_export");
    changeable[CAPTURE] = octets(CAPTURE) + room, may(ANSWER, 1);
    dz_answer answer = dz_export(octets(CAPTURE), room, octets(TRACE), n, words(ANSWER));
    return end(answer, CAN(DZ_OK) | CAN(DZ_REFUSED_BLOCK) | CAN(DZ_REFUSED_EXPORT) | CAN(DZ_REFUSED_ROOM));
}

static void capture_begin(void)
{
    begin("dz_capture_begin");
    changeable[PACKETS] = octets(PACKETS) + DZ_CAPTURE_HEAD_OCTETS;
    end(dz_capture_begin(octets(PACKETS)), CAN(DZ_OK));
}

/* A block of the trace, or so many octets from its first on. */
static dz_answer capture_block(size_t block, size_t n)
{
    const uint8_t *b = octets(TRACE) + block;
    uint64_t reader[DZ_READER_WORDS], *w = words(EXPORTER), port = w[DZ_EXPORTER_PORT];
    reader[DZ_READER_NEXT] = w[DZ_EXPORTER_NEXT];
    reader[DZ_READER_LAST] = w[DZ_EXPORTER_LAST];
    int sound = is_sound(b, n, reader);
    if (sound && port == 0) port = first_port(b);
    dz_answer right = !sound ? DZ_REFUSED_BLOCK : is_writable(b, port) ? DZ_OK : DZ_REFUSED_EXPORT;
    begin("dz_capture_block");
    may(EXPORTER, DZ_EXPORTER_WORDS), changeable[PACKETS] = octets(PACKETS) + DZ_PACKETS_OCTETS, may(ANSWER, 1);
    dz_answer answer = end(dz_capture_block(w, b, n, octets(PACKETS), words(ANSWER)), CAN(DZ_OK) | CAN(DZ_REFUSED_BLOCK) | CAN(DZ_REFUSED_EXPORT));
    must_be(answer, right);
    expect(answer != DZ_OK || (w[DZ_EXPORTER_NEXT] == reader[DZ_READER_NEXT] && w[DZ_EXPORTER_LAST] == reader[DZ_READER_LAST] && w[DZ_EXPORTER_PORT] == port), "other words of an exporter");
    return answer;
}

static dz_answer set_interval(uint64_t port, int8_t k)
{
    begin("dz_set_interval");
    may(PORTS, DZ_PORTS_WORDS);
    dz_answer answer = end(dz_set_interval(words(PORTS), port, k), CAN(DZ_OK) | CAN(DZ_REFUSED_PORT) | CAN(DZ_REFUSED_FIELD));
    return must_be(answer, !is_port(port) ? DZ_REFUSED_PORT : k < -3 || k > 4 ? DZ_REFUSED_FIELD : DZ_OK);
}

static dz_answer rank(size_t from, size_t n, enum box list)
{
    const uint64_t *run = words(RUN) + from * DZ_CANDIDATE_WORDS;
    dz_answer right = DZ_OK;
    for (size_t i = 0; i < n; i++) {
        const uint64_t *c = run + i * DZ_CANDIDATE_WORDS;
        if (!is_port(c[DZ_C_PORT])) right = DZ_REFUSED_PORT;
        else if (!fits(c, candidate_bits, DZ_CANDIDATE_WORDS) && right == DZ_OK) right = DZ_REFUSED_FIELD;
    }
    begin("dz_rank");
    may(list, DZ_LIST_WORDS);
    dz_answer answer = end(dz_rank(run, n, words(list)), CAN(DZ_OK) | CAN(DZ_REFUSED_PORT) | CAN(DZ_REFUSED_MANY) | CAN(DZ_REFUSED_FIELD));
    return must_be(answer, n > DZ_PORTS * DZ_SLOTS ? DZ_REFUSED_MANY : right);
}

static dz_answer merge(enum box a, enum box b)
{
    begin("dz_merge");
    may(MERGED, DZ_LIST_WORDS);
    dz_answer answer = end(dz_merge(words(a), words(b), words(MERGED)), CAN(DZ_OK) | CAN(DZ_REFUSED_UNRANKED) | CAN(DZ_REFUSED_FIELD));
    return must_be(answer, !is_ranked(words(a)) || !is_ranked(words(b)) ? DZ_REFUSED_UNRANKED : !list_fits(words(a)) || !list_fits(words(b)) ? DZ_REFUSED_FIELD : DZ_OK);
}

static dz_answer decide(uint64_t port)
{
    int whole = fits(words(OWN), own_bits, DZ_OWN_WORDS) && (words(BEST)[DZ_FOUND] == 0 || fits(words(BEST) + DZ_FOUND_CANDIDATE, candidate_bits, DZ_CANDIDATE_WORDS));
    begin("dz_decide");
    may(ANSWER, 1);
    dz_answer answer = end(dz_decide(words(OWN), words(LIST), port, words(BEST), words(ANSWER)), CAN(DZ_OK) | CAN(DZ_REFUSED_PORT) | CAN(DZ_REFUSED_UNRANKED) | CAN(DZ_REFUSED_FIELD));
    must_be(answer, !is_port(port) ? DZ_REFUSED_PORT : !is_ranked(words(LIST)) ? DZ_REFUSED_UNRANKED : !whole || !list_fits(words(LIST)) ? DZ_REFUSED_FIELD : DZ_OK);
    if (answer == DZ_OK) expect(words(ANSWER)[0] >= DZ_M1 && words(ANSWER)[0] <= DZ_P2, "a decision that is none");
    return answer;
}

static dz_answer decide_all(uint64_t t)
{
    int late = 0;
    for (uint64_t p = 1; p <= DZ_PORTS; p++) late |= t < last_of(p);
    begin("dz_decide_all");
    changeable[DECISIONS] = octets(DECISIONS) + DZ_PORTS, may(LIST, DZ_LIST_WORDS);
    dz_answer answer = end(dz_decide_all(words(PORTS), t, words(OWN), octets(DECISIONS), words(LIST)), CAN(DZ_OK) | CAN(DZ_REFUSED_BACKWARD) | CAN(DZ_REFUSED_FIELD));
    return must_be(answer, late ? DZ_REFUSED_BACKWARD : fits(words(OWN), own_bits, DZ_OWN_WORDS) ? DZ_OK : DZ_REFUSED_FIELD);
}

static dz_answer parent(void)
{
    begin("dz_parent");
    may(FOUND, DZ_FOUND_WORDS);
    dz_answer answer = end(dz_parent(words(OWN), words(LIST), words(FOUND)), CAN(DZ_OK) | CAN(DZ_REFUSED_UNRANKED) | CAN(DZ_REFUSED_FIELD));
    return must_be(answer, !is_ranked(words(LIST)) ? DZ_REFUSED_UNRANKED : fits(words(OWN), own_bits, DZ_OWN_WORDS) && list_fits(words(LIST)) ? DZ_OK : DZ_REFUSED_FIELD);
}

static dz_answer compare(enum box a, enum box b)
{
    begin("dz_compare");
    may(ANSWER, 1);
    dz_answer answer = end(dz_compare(words(a), words(b), words(ANSWER)), CAN(DZ_OK) | CAN(DZ_REFUSED_FIELD));
    must_be(answer, fits(words(a), set_bits, DZ_SET_WORDS) && fits(words(b), set_bits, DZ_SET_WORDS) ? DZ_OK : DZ_REFUSED_FIELD);
    if (answer == DZ_OK) expect(words(ANSWER)[0] >= DZ_A_BETTER && words(ANSWER)[0] <= DZ_ERROR_2, "a comparison that is none");
    return answer;
}

static dz_answer link_status(uint64_t port)
{
    begin("dz_link_status");
    may(FOUND, DZ_STEP_WORDS);
    return of_port(port, end(dz_link_status(words(LINKS), port, words(FOUND)), CAN(DZ_OK) | CAN(DZ_REFUSED_PORT)));
}

static dz_answer link_set(uint64_t port, uint8_t config)
{
    uint8_t calibrate = (uint8_t)below(3), retry = (uint8_t)any();
    uint32_t period = (uint32_t)any();
    uint64_t tx = any(), rx = any();
    begin("dz_link_set");
    may(LINKS, DZ_LINKS_WORDS);
    dz_answer answer = end(dz_link_set(words(LINKS), port, config, calibrate, retry, period, tx, rx), CAN(DZ_OK) | CAN(DZ_REFUSED_PORT) | CAN(DZ_REFUSED_FIELD));
    return must_be(answer, !is_port(port) ? DZ_REFUSED_PORT : config > DZ_CONFIG_BOTH ? DZ_REFUSED_FIELD : DZ_OK);
}

/* An event of a link: a message by its number, else one of the other four. */
enum { START, DONE, TIMEOUT, STOP, EVENTS };

static dz_answer link_event(uint64_t port, uint64_t event)
{
    static const char *const names[] = {"dz_link_start", "dz_link_done", "dz_link_timeout", "dz_link_stop", "dz_link_take"};
    uint64_t *links = words(LINKS), *step = words(STEP);
    uint8_t config = (uint8_t)below(5), mode = (uint8_t)below(2);
    dz_answer answer;
    begin(names[event < EVENTS ? event : EVENTS]);
    may(LINKS, DZ_LINKS_WORDS), may(STEP, DZ_STEP_WORDS);
    switch (event) {
    case START: answer = dz_link_start(links, port, config, mode, step); break;
    case DONE: answer = dz_link_done(links, port, step); break;
    case TIMEOUT: answer = dz_link_timeout(links, port, step); break;
    case STOP: answer = dz_link_stop(links, port, step); break;
    default: answer = dz_link_take(links, port, (uint16_t)event, step);
    }
    return of_port(port, end(answer, CAN(DZ_OK) | CAN(DZ_REFUSED_PORT)));
}

static dz_answer measure(void)
{
    begin("dz_measure");
    may(ANSWER, DZ_MEASURED_WORDS);
    return end(dz_measure(words(EXCHANGE), words(ANSWER)), CAN(DZ_OK) | CAN(DZ_REFUSED_RANGE));
}

/* ---- what is asked about ------------------------------------------------------------------------------------------------------- */

/* What kind of history it is. */
static enum { BY_CHANCE, REPEATING, CROWDED, ANY_WORDS, KINDS } kind;

/* A port, now and then one that is none, and of these some that are a port in their lowest bits. */
static uint64_t any_port(void)
{
    uint64_t port = 1 + below(DZ_PORTS);
    switch (below(12)) {
    case 0: return port + ((uint64_t)1 << (8 + below(56)));
    case 1: return one_in(2) ? 0 : DZ_PORTS + 1 + below(300);
    default: return port;
    }
}

/* A port that Announces come from, mostly one of few, so that its slots fill up. */
static uint64_t busy_port(void)
{
    return kind == REPEATING || one_in(2) ? 1 + below(2) : any_port();
}

/* A time: mostly the present, which goes on, else the past; seldom any, for a port that accepts one far ahead accepts no other, and its senders are not heard again. */
static uint64_t any_time(void)
{
    if (kind != REPEATING && one_in(500)) return edge();
    return one_in(10) ? below(now + 1) : (now += below(20000000));
}

/* The present, where no port's last accepted time is later. */
static uint64_t present(void)
{
    uint64_t t = now;
    for (uint64_t p = 1; p <= DZ_PORTS; p++)
        if (last_of(p) > t) t = last_of(p);
    return t;
}

/* A message in words, that can be written. Of the senders of Announces there are more than a port has slots; most of their numbers go up. */
static void any_message(uint64_t *m, uint64_t type)
{
    fill(m, DZ_MESSAGE_WORDS); /* of which those that the type has no field for stay */
    m[DZ_M_TYPE] = type;
    m[DZ_M_TRANSPORT] = below(16);
    m[DZ_M_DOMAIN] = one_in(16) ? below(256) : own_domain;
    m[DZ_M_FLAGS] = one_in(2) ? DZ_FLAG_TWO_STEP : below(65536);
    m[DZ_M_CORRECTION] = edge();
    m[DZ_M_CLOCK] = one_in(20) ? own_clock : 1 + below(20);
    m[DZ_M_PORT] = 1 + below(2);
    m[DZ_M_SEQUENCE] = one_in(5) ? below(65536) : calls / 8 % 65536;
    m[DZ_M_INTERVAL] = cut(any(), SIGNED | 8);
    m[DZ_M_SECONDS] = cut(edge(), 48);
    m[DZ_M_NANOS] = below(1000000000);
    if (type == DZ_SIGNALING) m[DZ_M_TARGET_CLOCK] = edge(), m[DZ_M_TARGET_PORT] = below(65536);
    if (type == DZ_DELAY_RESP) m[DZ_M_REQUESTER_PORT] = below(65536);
    if (type == DZ_ANNOUNCE) {
        m[DZ_M_UTC] = cut(any(), SIGNED | 16);
        for (int i = DZ_M_PRIORITY1; i <= DZ_M_PRIORITY2; i++) m[i] = below(3);
        m[DZ_M_GRANDMASTER] = 1 + below(5);
        m[DZ_M_STEPS] = one_in(8) ? DZ_STEPS_DISTANT - 2 + below(4) : one_in(32) ? below(65536) : below(3);
        m[DZ_M_SOURCE] = below(256);
        if (one_in(2)) { /* a sender that says the same on each port that hears it */
            for (int i = DZ_M_PRIORITY1; i <= DZ_M_PRIORITY2; i++) m[i] = 0;
            m[DZ_M_GRANDMASTER] = m[DZ_M_STEPS] = m[DZ_M_CLOCK] % 3;
        }
    }
}

static uint64_t any_type(void)
{
    static const uint8_t types[] = {DZ_SYNC, DZ_DELAY_REQ, DZ_FOLLOW_UP, DZ_DELAY_RESP, DZ_ANNOUNCE, DZ_SIGNALING};
    return types[below(sizeof types)];
}

/* A tail of some TLVs, White Rabbit's suffix among them. */
static size_t any_tail(uint8_t *t)
{
    size_t n = 0;
    for (uint64_t k = below(4); k > 0; k--) {
        if (one_in(2)) {
            dz_write_suffix((uint16_t)any(), magic, t + n);
            n += DZ_SUFFIX_OCTETS;
        } else {
            size_t l = 2 * below(12);
            t[n] = 0, t[n + 1] = (uint8_t)below(8), t[n + 2] = 0, t[n + 3] = (uint8_t)l;
            for (size_t i = 0; i < l; i++) t[n + 4 + i] = (uint8_t)any();
            n += 4 + l;
        }
    }
    return n;
}

/* A link message in words, that can be written; those that it does not carry are not looked at. */
static void any_link(uint64_t *l)
{
    fill(l, DZ_LINK_MESSAGE_WORDS);
    l[DZ_L_NUMBER] = DZ_LINK_SLAVE_PRESENT + below(6);
    if (l[DZ_L_NUMBER] == DZ_LINK_CALIBRATE) l[DZ_L_PATTERN] = below(256), l[DZ_L_RETRY] = below(256), l[DZ_L_PERIOD] = cut(any(), 32);
}

static size_t fixed_size(uint64_t type)
{
    return type == DZ_ANNOUNCE ? 64 : type == DZ_DELAY_RESP ? 54 : 44;
}

/* A message in octets, whole; padding may follow it. */
static size_t whole_frame(enum box b, uint64_t type)
{
    uint64_t m[DZ_MESSAGE_WORDS], link[DZ_LINK_MESSAGE_WORDS], n = 0;
    uint8_t tail[256];
    any_message(m, type);
    any_link(link);
    if (type == DZ_SIGNALING && one_in(2)) dz_write_link(octets(b), OCTETS, m, link, magic, &n);
    else dz_write(octets(b), OCTETS, m, tail, any_tail(tail), magic, &n);
    expect(n != 0, "a message that can be written was refused");
    return n + below(4);
}

/* The same with an octet changed, cut short, or any octets at all. */
static size_t damaged_frame(enum box b, uint64_t type)
{
    size_t n = whole_frame(b, type);
    uint8_t *o = octets(b), *tlv = o + fixed_size(type);
    switch (below(7)) {
    case 0: return below(n + 1);
    case 1: fill(words(b), OCTETS / 8); break;
    case 2: change_octet(o, 4); break; /* type, version, messageLength */
    case 3: change_octet(o + 40, 4); break; /* nanoseconds */
    case 4: tlv[3] = (uint8_t)below(32); break; /* the first TLV's length */
    case 5: tlv[10] = 0x10, tlv[11] = (uint8_t)below(6); break; /* White Rabbit's message number there, whose data may have another size */
    default: change_octet(o, n);
    }
    return n;
}

static size_t any_frame(enum box b, uint64_t type)
{
    return one_in(3) ? damaged_frame(b, type) : whole_frame(b, type);
}

/* A candidate that can be ranked, mostly one of few, so that ties are frequent. */
static void any_candidate(uint64_t *c)
{
    for (int i = 0; i < DZ_CANDIDATE_WORDS; i++) c[i] = one_in(20) ? cut(edge(), candidate_bits[i]) : below(2);
    c[DZ_C_PORT] = 1 + below(DZ_PORTS);
}

static void any_run(size_t n)
{
    for (size_t i = 0; i < n; i++) any_candidate(words(RUN) + i * DZ_CANDIDATE_WORDS);
}

/* Our own quality: a grandmaster's class now and then. */
static void any_own(void)
{
    static const uint64_t plain[DZ_OWN_WORDS] = DZ_OWN_DEFAULT(77);
    memcpy(words(OWN), plain, sizeof plain);
    for (int i = 0; i < DZ_OWN_WORDS; i++)
        if (one_in(6)) words(OWN)[i] = cut(one_in(2) ? below(3) : edge(), own_bits[i]);
}

/* Words past a list's count say nothing. */
static void forget_the_rest(enum box list)
{
    for (size_t i = words(list)[DZ_LIST_COUNT]; i < DZ_LIST_CANDIDATES; i++) fill(words(list) + DZ_LIST_AT(i), DZ_CANDIDATE_WORDS);
}

/* A ranked list that is one no longer, or that has a word too wide. */
static void damage_list(enum box b)
{
    uint64_t *list = words(b), count = list[DZ_LIST_COUNT] % (DZ_LIST_CANDIDATES + 1), *c = list + DZ_LIST_AT(below(count ? count : 1));
    switch (below(6)) {
    case 0: list[DZ_LIST_COUNT] = one_in(2) ? 5 + below(3) : edge(); break;
    case 1: c[DZ_C_PORT] = any_port(); break;
    case 2: memcpy(c, list + DZ_LIST_FIRST, DZ_CANDIDATE_WORDS * 8); break;
    case 3: if (count) set_to_edge(c, DZ_CANDIDATE_WORDS); break;
    default: if (count) widen(c, candidate_bits, DZ_CANDIDATE_WORDS);
    }
}

/* ---- what is tried ------------------------------------------------------------------------------------------------------------- */

/* A call on a port's words leaves the other ports' as they were. */
static void expect_own_words(enum box b, uint64_t port, size_t all)
{
    size_t each = all / DZ_PORTS, from = (port - 1) * each, to = from + each;
    expect(same_words(words(b), words_before(b), from) && same_words(words(b) + to, words_before(b) + to, all - to), "another port's words have changed");
}

/* Whether a time lies no further back than four intervals of a port. */
static int is_recent(uint64_t port, uint64_t t, uint64_t then)
{
    uint64_t told[DZ_STATUS_WORDS] = {0};
    dz_status(words(PORTS), port, told);
    return t < then || t - then <= (uint64_t)500000000 << (told[DZ_STATUS_INTERVAL] + 3);
}

/* The slot that a sender's record has, or that a new one would get; DZ_SLOTS where there is none. */
static size_t slot_for(uint64_t port, uint64_t t, const uint64_t *m, uint64_t r[DZ_RECORD_WORDS])
{
    size_t slot;
    for (slot = 0; slot < DZ_SLOTS; slot++) {
        dz_record(words(PORTS), port, slot, r);
        if (r[DZ_R_HELD] && r[DZ_R_SENDER_CLOCK] == m[DZ_M_CLOCK] && r[DZ_R_SENDER_PORT] == m[DZ_M_PORT]) return slot;
    }
    for (slot = 0; slot < DZ_SLOTS; slot++) {
        dz_record(words(PORTS), port, slot, r);
        if (!r[DZ_R_HELD] || !is_recent(port, t, r[DZ_R_NEWEST])) break;
    }
    memset(r, 0, DZ_RECORD_WORDS * 8);
    return slot;
}

/* What taking the Announce of some words must answer, by what the port tells of itself and of its slot. */
static dz_answer intake(const uint64_t *m, uint64_t port, uint64_t t, size_t slot, const uint64_t r[DZ_RECORD_WORDS])
{
    if (m[DZ_M_TYPE] != DZ_ANNOUNCE) return DZ_REFUSED_TYPE;
    if (m[DZ_M_DOMAIN] != own_domain) return DZ_REFUSED_DOMAIN;
    if (m[DZ_M_CLOCK] == own_clock) return DZ_REFUSED_OWN;
    if (t < last_of(port)) return DZ_REFUSED_BACKWARD;
    if (slot == DZ_SLOTS) return DZ_REFUSED_FULL;
    if (!r[DZ_R_HELD] || !is_recent(port, t, r[DZ_R_NEWEST])) return DZ_OK;
    return (m[DZ_M_SEQUENCE] - r[DZ_R_SEQUENCE] - 1) % 65536 < 32767 ? DZ_OK : DZ_REFUSED_STALE;
}

/* The record in a slot after an Announce was taken: what was read of it, and the receipts. */
static void expect_taken(const uint64_t *m, uint64_t flags, uint64_t port, uint64_t t, size_t slot, const uint64_t was[DZ_RECORD_WORDS])
{
    const uint64_t *r = words(RECORD);
    int again = was[DZ_R_HELD] && is_recent(port, t, was[DZ_R_NEWEST]);
    record(port, slot);
    expect(r[DZ_R_HELD] == 1 && r[DZ_R_SENDER_CLOCK] == m[DZ_M_CLOCK] && r[DZ_R_SENDER_PORT] == m[DZ_M_PORT] && r[DZ_R_SEQUENCE] == m[DZ_M_SEQUENCE], "a record of another sender");
    expect(r[DZ_R_NEWEST] == t && r[DZ_R_OLDER] == (again ? was[DZ_R_NEWEST] : 0) && r[DZ_R_RECEIPTS] == (again ? 2 : 1), "other receipts");
    expect(same_words(r + DZ_R_PRIORITY1, m + DZ_M_PRIORITY1, DZ_M_STEPS - DZ_M_PRIORITY1 + 1) && r[DZ_R_WRFLAGS] == flags, "a record of other data");
}

/* Makes the frame one of a sender that the port has a record of, its number at an edge of what is newer. */
static void repeat_sender(uint64_t port)
{
    static const uint16_t ahead[] = {0, 1, 2, 32766, 32767, 32768, 65535};
    uint64_t r[DZ_RECORD_WORDS] = {0};
    dz_record(words(PORTS), port, below(DZ_SLOTS), r);
    if (!r[DZ_R_HELD]) return;
    put(octets(FRAME) + 20, 8, r[DZ_R_SENDER_CLOCK]);
    put(octets(FRAME) + 28, 2, r[DZ_R_SENDER_PORT]);
    put(octets(FRAME) + 30, 2, r[DZ_R_SEQUENCE] + ahead[below(sizeof ahead / sizeof *ahead)]);
}

/* An Announce is taken as reading it and the port's records say. */
static void try_taking(void)
{
    uint64_t port = busy_port(), t = any_time(), m[DZ_MESSAGE_WORDS], was[DZ_RECORD_WORDS] = {0}, flags;
    size_t n = any_frame(FRAME, one_in(12) ? any_type() : DZ_ANNOUNCE), slot = 0;
    if (one_in(kind == REPEATING ? 1 : 3)) repeat_sender(port);
    dz_answer right = read_frame(FRAME, n);
    memcpy(m, words(MESSAGE), sizeof m);
    flags = suffix(n) == DZ_OK ? words(FOUND)[DZ_FOUND_WRFLAGS] : 0;
    if (!is_port(port)) right = DZ_REFUSED_PORT;
    if (right == DZ_OK) slot = slot_for(port, t, m, was), right = intake(m, port, t, slot, was);
    if (must_be(take(port, t, n), right) != DZ_OK) return;
    expect_own_words(PORTS, port, DZ_PORTS_WORDS);
    expect_taken(m, flags, port, t, slot, was);
    expect(last_of(port) == t, "another last accepted time");
}

/* Announces in a row, as they come. */
static void try_announces(void)
{
    for (uint64_t n = 1 + below(16); n > 0; n--) try_taking();
}

/* Messages lie in a ring, one behind the other with gaps between them, some over others. */
enum { MOST_LAID = 40 };
struct laid {
    size_t at, length;
};

static size_t lay_messages(struct laid laid[MOST_LAID])
{
    size_t count = 0, next = below(16);
    fill(words(RING), RING_OCTETS / 8);
    while (count < MOST_LAID && next <= RING_OCTETS - OCTETS) {
        struct laid *m = laid + count++;
        m->length = any_frame(FRAME, one_in(12) ? any_type() : DZ_ANNOUNCE);
        if (one_in(kind == REPEATING ? 1 : 3)) repeat_sender(busy_port());
        m->at = one_in(10) ? below(RING_OCTETS - OCTETS) : next;
        memcpy(octets(RING) + m->at, octets(FRAME), m->length);
        next += m->length + below(8);
    }
    return count;
}

/* One of them arrives; now and then another part of the ring, or one that begins or ends past it. */
static void any_arrival(uint64_t *row, const struct laid *laid, size_t count)
{
    const struct laid *m = laid + below(count);
    row[DZ_BURST_PORT] = busy_port();
    row[DZ_BURST_TIME] = any_time();
    row[DZ_BURST_AT] = one_in(16) ? one_in(2) ? below(RING_OCTETS + 100) : edge() : m->at;
    row[DZ_BURST_LENGTH] = one_in(16) ? one_in(2) ? below(RING_OCTETS + 100) : edge() : m->length;
    row[DZ_BURST_ANSWER] = any();
}

/* What taking a message alone answers, on other words; of the octets that its row names, those that were lent lie apart from the ring. */
static dz_answer take_alone(uint64_t other[DZ_PORTS_WORDS], const uint64_t *row, size_t lent)
{
    static uint8_t apart[RING_OCTETS];
    uint64_t at = row[DZ_BURST_AT], length = row[DZ_BURST_LENGTH];
    if (at >= lent) length = 0;
    else if (length > lent - at) length = lent - at;
    if (length > 0) memcpy(apart, octets(RING) + at, length);
    return dz_take(other, row[DZ_BURST_PORT], row[DZ_BURST_TIME], apart, length, own_domain, own_clock, magic);
}

/* A burst leaves the words, and beside each message the answer, that its messages leave and get one after another. More than 288 leave all as it was. */
static void try_bursts(void)
{
    static uint64_t other[DZ_PORTS_WORDS];
    struct laid laid[MOST_LAID];
    size_t count = lay_messages(laid), n = one_in(kind == CROWDED ? 2 : 12) ? DZ_BURST_MOST - 7 + below(16) : below(24), lent = one_in(4) ? below(RING_OCTETS + 1) : RING_OCTETS;
    for (size_t i = 0; i < n; i++) any_arrival(words(BURST) + i * DZ_BURST_WORDS, laid, count);
    memcpy(other, words(PORTS), sizeof other);
    if (take_burst(lent, n) != DZ_OK) return;
    for (size_t i = 0; i < n; i++) {
        const uint64_t *row = words(BURST) + i * DZ_BURST_WORDS, *was = words_before(BURST) + i * DZ_BURST_WORDS;
        expect(same_words(row, was, DZ_BURST_ANSWER), "a message's port, time or place has changed");
        must_be(row[DZ_BURST_ANSWER], take_alone(other, was, lent));
    }
    expect(same_words(words(PORTS), other, DZ_PORTS_WORDS), "a burst leaves other words than its messages do one after another");
}

/* Words of a recording that no call need have left, mostly at the edges of what they say. */
static void any_recording(void)
{
    static const uint64_t ends[] = {0, RECORDS_AT - 1, RECORDS_AT, RECORDS_AT + 1, DZ_BLOCK_OCTETS - MESSAGE_AT, DZ_BLOCK_OCTETS - MESSAGE_AT + 1, DZ_BLOCK_OCTETS, DZ_BLOCK_OCTETS + 1};
    uint64_t *w = words(RECORDING);
    w[DZ_RECORDING_NEXT] = one_in(2) ? last_number - 1 + below(4) : edge();
    w[DZ_RECORDING_LAST] = one_in(2) ? now : edge();
    w[DZ_RECORDING_END] = one_in(8) ? edge() : one_in(4) ? below(DZ_BLOCK_OCTETS + 2) : ends[below(sizeof ends / sizeof *ends)];
    fill(words(OPEN), DZ_BLOCK_OCTETS / 8);
    if (one_in(4)) seal(octets(OPEN)), move_check(octets(OPEN));
}

/* A message to record: a frame, so many octets as there is room for in the open block, one more, or a number of them at another edge. */
static size_t any_recorded(void)
{
    static const size_t edges[] = {0, 1, DZ_TRACE_LONGEST - 1, DZ_TRACE_LONGEST, DZ_TRACE_LONGEST + 1, OCTETS};
    size_t n = any_frame(FRAME, one_in(12) ? any_type() : DZ_ANNOUNCE);
    uint64_t room = DZ_BLOCK_OCTETS - MESSAGE_AT - words(RECORDING)[DZ_RECORDING_END];
    switch (below(8)) {
    case 0: return edges[below(sizeof edges / sizeof *edges)];
    case 1: return room < DZ_BLOCK_OCTETS ? room + below(2) : n;
    default: return n;
    }
}

/* A time to record it at: that of the last record, one below, or later. */
static uint64_t any_recorded_time(void)
{
    uint64_t last = words(RECORDING)[DZ_RECORDING_LAST];
    return one_in(4) ? last - below(2) : one_in(64) ? edge() : last + below(20000000);
}

/* The open block has come out with its check where it is to, and nothing elsewhere. */
static void expect_closed(int closed)
{
    uint8_t right[DZ_BLOCK_OCTETS];
    memcpy(right, words_before(closed ? OPEN : BLOCK), sizeof right);
    if (closed) seal(right);
    expect(words(ANSWER)[0] == (uint64_t)closed, "a block has come out, or none, against its word");
    expect(!memcmp(octets(BLOCK), right, sizeof right), "another block has come out");
}

/* A message that was recorded stands behind those of the open block; where it does not fit, it is the first of a new one, and the old one has come out. */
static void expect_recorded(uint64_t port, uint64_t t, const uint8_t *message, size_t n)
{
    const uint64_t *w = words(RECORDING), *was = words_before(RECORDING);
    int fitted = has_place(was[DZ_RECORDING_END], n);
    size_t at = fitted ? was[DZ_RECORDING_END] : RECORDS_AT;
    uint8_t right[DZ_BLOCK_OCTETS] = {0};
    if (fitted) memcpy(right, words_before(OPEN), sizeof right);
    else put(right + NUMBER_AT, 4, was[DZ_RECORDING_NEXT]), put(right + FIRST_TIME_AT, 8, t);
    put(right + COUNT_AT, 2, get(right + COUNT_AT, 2) + 1);
    put(right + at, 8, t);
    put(right + at + PORT_AT, 1, port);
    put(right + at + LENGTH_AT, 2, n);
    memcpy(right + at + MESSAGE_AT, message, n);
    expect(!memcmp(octets(OPEN), right, sizeof right), "another open block");
    expect(w[DZ_RECORDING_NEXT] == was[DZ_RECORDING_NEXT] + !fitted && w[DZ_RECORDING_LAST] == t && w[DZ_RECORDING_END] == at + MESSAGE_AT + n, "other words of a recording");
    expect_closed(!fitted && is_open(was[DZ_RECORDING_END]));
}

static dz_answer record_frame(uint64_t port, uint64_t t, size_t n)
{
    dz_answer answer = trace_record(port, t, n);
    if (answer == DZ_OK) expect_recorded(port, t, octets(FRAME), n);
    return answer;
}

/* Gives the open block, and the recording goes on. */
static void finish(void)
{
    trace_finish();
    expect_closed(is_open(words(RECORDING)[DZ_RECORDING_END]));
}

/* Messages recorded under words of every kind. */
static void try_recording(void)
{
    any_recording();
    for (uint64_t n = 1 + below(8); n > 0; n--) {
        uint64_t port = any_port(), t = any_recorded_time();
        record_frame(port, t, any_recorded());
        if (one_in(4)) finish();
    }
}

/* Puts the block that came out behind the others of the trace. */
static size_t keep_block(size_t n)
{
    if (!words(ANSWER)[0]) return n;
    memcpy(octets(TRACE) + n, octets(BLOCK), DZ_BLOCK_OCTETS);
    return n + DZ_BLOCK_OCTETS;
}

/* A trace from a fresh recording on, and how many octets it has. A live clock takes what is recorded; of what it refuses some is left out. Now and then
   most messages are of an octet or none, so that a block has many. */
static size_t any_trace(uint64_t live[DZ_PORTS_WORDS])
{
    size_t n = 0;
    int dense = one_in(8);
    memset(words(RECORDING), 0, DZ_RECORDING_WORDS * 8);
    if (one_in(4)) words(RECORDING)[DZ_RECORDING_NEXT] = last_number - below(6);
    for (uint64_t left = below(dense ? 150 : 60); left > 0 && n < TRACE_OCTETS - 2 * DZ_BLOCK_OCTETS; left--) {
        uint64_t port = busy_port(), t = any_recorded_time();
        size_t length = dense && !one_in(16) ? below(2) : any_recorded();
        int taken = recording_answer(port, t, length) == DZ_OK && dz_take(live, port, t, octets(FRAME), length, own_domain, own_clock, magic) == DZ_OK;
        if (!taken && one_in(3)) continue;
        if (record_frame(port, t, length) == DZ_OK) n = keep_block(n);
    }
    finish();
    return keep_block(n);
}

/* A number beside another, or one at an edge. */
static uint64_t nearby(uint64_t w)
{
    return one_in(2) ? w + below(3) - 1 : edge();
}

/* Where a record of a block stands, mostly. */
static size_t any_record(const uint8_t *b)
{
    size_t at = RECORDS_AT;
    while (!one_in(4) && at + MESSAGE_AT + get(b + at + LENGTH_AT, 2) <= DZ_BLOCK_OCTETS - MESSAGE_AT) at += MESSAGE_AT + get(b + at + LENGTH_AT, 2);
    return at;
}

static void change_number(uint8_t *o, size_t n)
{
    put(o, n, nearby(get(o, n)));
}

/* Changes a field of a block, and mends its check. */
static void change_field(uint8_t *b)
{
    size_t at = any_record(b), k = below(4);
    switch (below(10)) {
    case 0: change_number(b + NUMBER_AT, 4); break;
    case 1: change_number(b + FIRST_TIME_AT, 8); break;
    case 2: change_number(b + COUNT_AT, 2); break;
    case 3: change_number(b + at, 8); break;
    case 4: b[at + PORT_AT] = (uint8_t)(k / 2 * DZ_PORTS + k % 2); break; /* 0, 1, 18 or 19 */
    case 5: change_number(b + at + LENGTH_AT, 2); break;
    case 6: put(b + at + LENGTH_AT, 2, DZ_BLOCK_OCTETS - MESSAGE_AT - at + k - 1); break; /* to the end of the block, and past it */
    case 7: b[DZ_BLOCK_OCTETS - 1 - (k % 2 ? 0 : below(64))] ^= 1; break;
    case 8: memset(b + FIRST_TIME_AT, 0, DZ_BLOCK_OCTETS - FIRST_TIME_AT); break; /* no record */
    default: /* the first time in the head and in the record */
        change_number(b + FIRST_TIME_AT, 8);
        memcpy(b + RECORDS_AT, b + FIRST_TIME_AT, 8);
    }
    seal(b);
}

/* Changes a word of a block; the check stays right where it was 0 or 65,535. */
static void turn_word(uint8_t *b)
{
    uint8_t *word = any_word(b);
    put(word, 2, get(word, 2) ? 0 : 65535);
}

static void exchange_blocks(uint8_t *a, uint8_t *b)
{
    uint8_t c[DZ_BLOCK_OCTETS];
    memcpy(c, a, sizeof c);
    memmove(a, b, sizeof c);
    memcpy(b, c, sizeof c);
}

/* Damages a trace in one way; how many octets it has then. */
static size_t damage_trace(size_t n)
{
    size_t blocks = n / DZ_BLOCK_OCTETS, i = below(blocks + !blocks), k = below(blocks + !blocks);
    uint8_t *b = octets(TRACE) + i * DZ_BLOCK_OCTETS, *next = b + DZ_BLOCK_OCTETS;
    if (!blocks) return below(DZ_BLOCK_OCTETS + 2); /* whatever octets are there */
    switch (below(10)) {
    case 0: change_octet(b, DZ_BLOCK_OCTETS); return n;
    case 1: exchange_blocks(b, octets(TRACE) + k * DZ_BLOCK_OCTETS); return n;
    case 2: return one_in(2) || n == TRACE_OCTETS ? below(n) : n + 1 + below(TRACE_OCTETS - n);
    case 3: memmove(b, next, n - (i + 1) * DZ_BLOCK_OCTETS); return n - DZ_BLOCK_OCTETS;
    case 4: memmove(next, b, TRACE_OCTETS - (i + 1) * DZ_BLOCK_OCTETS); return n <= TRACE_OCTETS - DZ_BLOCK_OCTETS ? n + DZ_BLOCK_OCTETS : n;
    case 5: turn_word(b); return n;
    case 6: move_check(b); return n;
    default: change_field(b); return n;
    }
}

/* Takes the records of a block on other words, one after another. */
static void take_records(uint64_t other[DZ_PORTS_WORDS], const uint8_t *b)
{
    uint64_t entry[DZ_FOUND_ENTRY_WORDS], count = 0;
    for (uint64_t at = 0; dz_trace_walk(b, at, entry) == DZ_OK && entry[DZ_FOUND]; at = entry[DZ_N_END], count++)
        dz_take(other, entry[DZ_N_PORT], entry[DZ_N_TIME], b + entry[DZ_N_AT], entry[DZ_N_LENGTH], own_domain, own_clock, magic);
    expect(count == get(b + COUNT_AT, 2), "a walk that meets more or fewer records than a block has");
}

/* A block that is replayed leaves the words that its messages leave one after another. */
static void expect_block(size_t block, size_t n)
{
    static uint64_t other[DZ_PORTS_WORDS];
    memcpy(other, words(REPLAYED), sizeof other);
    if (replay_block(block, n) == DZ_OK) take_records(other, octets(TRACE) + block);
    expect(same_words(words(REPLAYED), other, DZ_PORTS_WORDS), "a block leaves other words than its messages do one after another");
}

/* A fresh clock, set as another one. */
static void set_alike(uint64_t clock[DZ_PORTS_WORDS], const uint64_t *other)
{
    uint64_t told[DZ_STATUS_WORDS] = {0};
    memset(clock, 0, DZ_PORTS_WORDS * 8);
    for (uint64_t p = 1; p <= DZ_PORTS; p++) {
        dz_status(other, p, told);
        dz_set_interval(clock, p, (int8_t)(int64_t)told[DZ_STATUS_INTERVAL]);
    }
}

/* Whether two clocks tell the same of their ports and slots. */
static int tell_same(const uint64_t *a, const uint64_t *b)
{
    uint64_t x[DZ_RECORD_WORDS] = {0}, y[DZ_RECORD_WORDS] = {0};
    for (uint64_t p = 1; p <= DZ_PORTS; p++) {
        dz_status(a, p, x), dz_status(b, p, y);
        if (!same_words(x, y, DZ_STATUS_WORDS)) return 0;
        for (size_t slot = 0; slot < DZ_SLOTS; slot++) {
            dz_record(a, p, slot, x), dz_record(b, p, slot, y);
            if (!same_words(x, y, DZ_RECORD_WORDS)) return 0;
        }
    }
    return 1;
}

/* A trace replayed in one call, on the words of the moment, leaves what its blocks leave one after another on a clock that is fresh and set alike. Of words
   that no call has left, the intervals may stand otherwise than a call sets them. */
static dz_answer expect_replay(const uint64_t fresh[DZ_PORTS_WORDS], size_t n)
{
    static uint64_t whole[DZ_PORTS_WORDS];
    memcpy(words(REPLAYED), words(PORTS), sizeof whole);
    dz_answer answer = replay(n);
    memcpy(whole, words(REPLAYED), sizeof whole);
    memcpy(words(REPLAYED), fresh, sizeof whole);
    memset(words(READER), 0, DZ_READER_WORDS * 8);
    for (size_t at = 0; at < n; at += DZ_BLOCK_OCTETS) expect_block(at, block_octets(n, at));
    if (answer == DZ_OK)
        expect(kind == ANY_WORDS ? tell_same(whole, words(REPLAYED)) : same_words(whole, words(REPLAYED), DZ_PORTS_WORDS), "a trace leaves other words than its blocks do one after another");
    return answer;
}

/* The record at an octet of a block is the one that stands there, or none. */
static void expect_entry(size_t block, uint64_t from)
{
    const uint8_t *b = octets(TRACE) + block;
    uint64_t at = from < RECORDS_AT ? RECORDS_AT : from, right[DZ_FOUND_ENTRY_WORDS] = {0};
    if (record_end(b, at)) {
        right[DZ_FOUND] = 1;
        right[DZ_N_TIME] = get(b + at, 8);
        right[DZ_N_PORT] = b[at + PORT_AT];
        right[DZ_N_AT] = at + MESSAGE_AT;
        right[DZ_N_LENGTH] = get(b + at + LENGTH_AT, 2);
        right[DZ_N_END] = record_end(b, at);
    }
    trace_walk(block, from);
    expect(same_words(words(FOUND), right, DZ_FOUND_ENTRY_WORDS), "another record than the one that stands there");
}

/* A block of the trace, behind a reader and on words of every kind, and its records. */
static void try_block(size_t block)
{
    static const size_t lengths[] = {0, 1, DZ_BLOCK_OCTETS - 1, DZ_BLOCK_OCTETS + 1, 2 * DZ_BLOCK_OCTETS};
    uint8_t *b = octets(TRACE) + block;
    size_t n = one_in(8) ? lengths[below(sizeof lengths / sizeof *lengths)] : DZ_BLOCK_OCTETS;
    memcpy(words(REPLAYED), words(PORTS), DZ_PORTS_WORDS * 8);
    words(READER)[DZ_READER_NEXT] = nearby(get(b + NUMBER_AT, 4));
    words(READER)[DZ_READER_LAST] = nearby(get(b + FIRST_TIME_AT, 8));
    expect_block(block, n <= TRACE_OCTETS - block ? n : 0);
    if (one_in(2)) change_field(b);
    expect_entry(block, 0);
    expect_entry(block, any_record(b));
    expect_entry(block, one_in(4) ? edge() : below(DZ_BLOCK_OCTETS + 2));
}

/* A trace gives the clock that was live when it was recorded; damaged, it is refused, or is a trace of its own. */
static void try_traces(void)
{
    static uint64_t fresh[DZ_PORTS_WORDS], live[DZ_PORTS_WORDS];
    static uint8_t recorded[TRACE_OCTETS];
    set_alike(fresh, words(PORTS));
    memcpy(live, fresh, sizeof live);
    size_t n = any_trace(live);
    memcpy(recorded, octets(TRACE), sizeof recorded);
    must_be(expect_replay(fresh, n), DZ_OK);
    expect(same_words(words(REPLAYED), live, DZ_PORTS_WORDS), "a replay leaves another clock than the live one");
    for (uint64_t left = below(5); left > 0; left--) {
        memcpy(octets(TRACE), recorded, sizeof recorded);
        size_t damaged = damage_trace(n);
        expect_replay(fresh, one_in(4) ? damage_trace(damaged) : damaged);
        try_block(below(n / DZ_BLOCK_OCTETS + 1) * DZ_BLOCK_OCTETS);
    }
}

/* An Ethernet frame, and how many octets it has: mostly of PTP, now and then with a message of a length at an edge; else of another type, or too short for a head. */
static size_t any_ethernet(void)
{
    static const size_t edges[] = {0, 1, DZ_TRACE_LONGEST - 1, DZ_TRACE_LONGEST, DZ_TRACE_LONGEST + 1, OCTETS - DZ_FRAME_HEAD_OCTETS};
    static const uint16_t others[] = {0x0800, 0x8100, PTP - 1, PTP + 1, 0xF788};
    size_t n = any_frame(FOLLOW, one_in(4) ? any_type() : DZ_ANNOUNCE);
    memcpy(octets(FRAME) + DZ_FRAME_HEAD_OCTETS, octets(FOLLOW), n);
    put(octets(FRAME) + TYPE_AT, 2, one_in(6) ? others[below(sizeof others / sizeof *others)] : PTP);
    if (one_in(12)) return below(DZ_FRAME_HEAD_OCTETS + 1);
    return DZ_FRAME_HEAD_OCTETS + (one_in(6) ? edges[below(sizeof edges / sizeof *edges)] : n);
}

/* A frame that is recorded has its message behind the others; one that is passed over has changed nothing, and no block has come out. */
static void expect_frame(uint64_t port, uint64_t t, size_t n)
{
    if (capture_record(port, t, n) != DZ_OK) return;
    if (is_ptp(octets(FRAME), n)) expect_recorded(port, t, octets(FRAME) + DZ_FRAME_HEAD_OCTETS, n - DZ_FRAME_HEAD_OCTETS);
    else expect(words(ANSWER)[0] == 0, "a block has come out of a frame that is passed over");
}

/* Frames recorded under words of every kind. */
static void try_frames(void)
{
    any_recording();
    for (uint64_t n = 1 + below(8); n > 0; n--) {
        uint64_t port = any_port(), t = any_recorded_time();
        expect_frame(port, t, any_ethernet());
    }
}

/* A capture in CAPTURE: its form, where its packets begin, and how many octets it has. */
enum { MOST_PACKETS = 40 };
struct file {
    uint64_t form[DZ_FORM_WORDS];
    size_t packets[MOST_PACKETS], count, length;
};

static void begin_file(struct file *x)
{
    uint8_t *head = octets(CAPTURE);
    x->form[DZ_FORM_LITTLE] = below(2);
    x->form[DZ_FORM_UNIT] = one_in(2) ? 1 : 1000;
    x->count = 0;
    x->length = DZ_CAPTURE_HEAD_OCTETS;
    fill(words(CAPTURE), DZ_CAPTURE_HEAD_OCTETS / 8); /* of which zone, accuracy and snapshot length stay */
    put_in(x->form, head, 4, x->form[DZ_FORM_UNIT] == 1 ? nano_magic : micro_magic);
    put_in(x->form, head + VERSION_AT, 2, 2);
    put_in(x->form, head + REVISION_AT, 2, 4);
    put_in(x->form, head + LINK_TYPE_AT, 4, 1);
}

static void add_packet(struct file *x, uint64_t t)
{
    uint8_t *head = octets(CAPTURE) + x->length;
    size_t n = any_ethernet();
    put_in(x->form, head, 4, t / second_nanos);
    put_in(x->form, head + FRACTION_AT, 4, t % second_nanos / x->form[DZ_FORM_UNIT]);
    put_in(x->form, head + STORED_AT, 4, n);
    put_in(x->form, head + ORIGINAL_AT, 4, one_in(16) ? below(n + 1) : n);
    memcpy(head + DZ_PACKET_HEAD_OCTETS, octets(FRAME), n);
    x->packets[x->count++] = x->length;
    x->length += DZ_PACKET_HEAD_OCTETS + n;
}

/* A capture without a fault; what recording refuses may be in it. Its times mostly go on, and may come to the last second that there is. */
static void any_capture(struct file *x)
{
    uint64_t t = one_in(8) ? last_second * second_nanos : below(2 * second_nanos);
    begin_file(x);
    for (uint64_t left = below(MOST_PACKETS + 1); left > 0 && x->length <= CAPTURE_OCTETS - DZ_PACKET_HEAD_OCTETS - OCTETS; left--) {
        if (one_in(64)) t -= t < 2000 ? 0 : 1000 + below(1000);
        else if (one_in(2)) t += below(20000000);
        add_packet(x, t);
    }
}

/* Changes a number of a file. */
static void change_number_in(const struct file *x, size_t at, size_t n)
{
    uint8_t *o = octets(CAPTURE) + at;
    put_in(x->form, o, n, nearby(get_in(x->form, o, n)));
}

/* Damages a capture in one way. */
static void damage_capture(struct file *x)
{
    static const size_t heads[][2] = {{0, 4}, {VERSION_AT, 2}, {REVISION_AT, 2}, {LINK_TYPE_AT, 4}};
    const size_t *field = heads[below(sizeof heads / sizeof *heads)];
    size_t packet = x->count ? x->packets[below(x->count)] : 0; /* the head stands for one where there is none */
    switch (below(8)) {
    case 0: change_number_in(x, field[0], field[1]); break;
    case 1: x->length -= below(one_in(2) && x->length > 2 ? 3 : x->length + 1); break;
    case 2: x->length += below(CAPTURE_OCTETS - x->length > 40 ? 40 : 1); break;
    case 3: put_in(x->form, octets(CAPTURE) + packet + FRACTION_AT, 4, second_nanos / x->form[DZ_FORM_UNIT] - below(2)); break;
    case 4: change_number_in(x, packet + STORED_AT, 4); break;
    case 5: change_number_in(x, packet + ORIGINAL_AT, 4); break;
    case 6: change_octet(octets(CAPTURE), DZ_CAPTURE_HEAD_OCTETS); break;
    default: change_octet(octets(CAPTURE), x->length ? x->length : 1);
    }
}

/* Heads of packets under forms of every kind. */
static void try_packet_heads(const struct file *x)
{
    static const uint64_t units[] = {0, 1, 2, 999, 1000, 1001};
    capture_head();
    for (size_t i = 0; i < x->count; i++) {
        memcpy(words(FORM), x->form, sizeof x->form);
        if (one_in(4)) words(FORM)[DZ_FORM_LITTLE] = one_in(2) ? below(3) : edge();
        if (one_in(4)) words(FORM)[DZ_FORM_UNIT] = one_in(2) ? edge() : units[below(sizeof units / sizeof *units)];
        capture_packet(x->packets[i]);
    }
}

/* The trace of a capture: a message of half a block takes a whole one, so that it may have almost twice as many octets. */
static uint8_t streamed[CAPTURE_OCTETS * 2 + DZ_BLOCK_OCTETS];

/* Records all packets of a file, one after another, until one is refused: how many octets the trace has. */
static dz_answer stream_packets(const uint64_t form[DZ_FORM_WORDS], uint64_t port, size_t n, size_t *length)
{
    uint64_t recording[DZ_RECORDING_WORDS] = {0}, packet[DZ_PACKET_WORDS], closed = 0;
    uint8_t open[DZ_BLOCK_OCTETS];
    *length = 0;
    for (size_t at = DZ_CAPTURE_HEAD_OCTETS; at < n; at += DZ_PACKET_HEAD_OCTETS + packet[DZ_K_STORED]) {
        expect(dz_capture_packet(form, octets(CAPTURE) + at, packet) == DZ_OK, "a packet of a capture that is none");
        dz_answer answer = dz_capture_record(recording, open, port, packet[DZ_K_TIME], octets(CAPTURE) + at + DZ_PACKET_HEAD_OCTETS, packet[DZ_K_STORED], streamed + *length, &closed);
        if (answer != DZ_OK) return answer;
        if (closed) *length += DZ_BLOCK_OCTETS;
    }
    closed = 0;
    dz_trace_finish(recording, open, streamed + *length, &closed);
    if (closed) *length += DZ_BLOCK_OCTETS;
    return DZ_OK;
}

/* What importing must answer, were there room enough, by the calls that go through a file packet by packet. */
static dz_answer stream(uint64_t port, size_t n, size_t *length)
{
    uint64_t form[DZ_FORM_WORDS];
    *length = 0;
    if (!is_capture(octets(CAPTURE), n)) return DZ_REFUSED_PCAP;
    if (!is_port(port)) return DZ_REFUSED_PORT;
    expect(dz_capture_head(octets(CAPTURE), form) == DZ_OK, "a head of a capture that is none");
    return stream_packets(form, port, n, length);
}

/* Some room: as much as is needed, an octet less, or any. */
static size_t any_room(size_t needed, size_t most)
{
    size_t room = one_in(4) ? below(most + 1) : one_in(4) ? needed - (needed > 0) : one_in(2) ? needed : most;
    return room < most ? room : most;
}

/* A capture gives the trace that its packets give one after another, or their first refusal; that trace can be replayed. */
static dz_answer try_import(uint64_t port, size_t n)
{
    size_t length;
    uint64_t last;
    dz_answer right = stream(port, n, &length);
    size_t room = any_room(length, TRACE_OCTETS);
    if (must_be(import(room, port, n), right == DZ_OK && length > room ? DZ_REFUSED_ROOM : right) != DZ_OK) return right;
    expect(words(ANSWER)[0] == length && !memcmp(octets(IMPORTED), streamed, length), "another trace than packet by packet");
    expect(!memcmp(octets(IMPORTED) + length, (const uint8_t *)words_before(IMPORTED) + length, room - length), "octets past the trace have changed");
    expect(is_trace(octets(IMPORTED), length, &last), "a capture gives a trace that cannot be replayed");
    return right;
}

/* What exporting must answer, were there room enough. */
static dz_answer export_answer(size_t n)
{
    uint64_t last;
    if (!is_trace(octets(TRACE), n, &last)) return DZ_REFUSED_BLOCK;
    for (size_t at = 0; at < n; at += DZ_BLOCK_OCTETS)
        if (!is_writable(octets(TRACE) + at, first_port(octets(TRACE)))) return DZ_REFUSED_EXPORT;
    return DZ_OK;
}

/* The packet of a record. */
static size_t put_packet(uint8_t *o, uint64_t t, const uint8_t *message, size_t n)
{
    memset(o, 0, BEFORE);
    put(o, 4, t / second_nanos);
    put(o + FRACTION_AT, 4, t % second_nanos);
    put(o + STORED_AT, 4, DZ_FRAME_HEAD_OCTETS + n);
    put(o + ORIGINAL_AT, 4, DZ_FRAME_HEAD_OCTETS + n);
    put(o + DZ_PACKET_HEAD_OCTETS + TYPE_AT, 2, PTP);
    memcpy(o + BEFORE, message, n);
    return BEFORE + n;
}

/* The packets of a sound block: how many octets they have. */
static size_t put_packets(uint8_t *o, const uint8_t *b)
{
    size_t n = 0, at = RECORDS_AT;
    for (uint64_t left = get(b + COUNT_AT, 2); left > 0; left--, at = record_end(b, at)) n += put_packet(o + n, get(b + at, 8), b + at + MESSAGE_AT, record_end(b, at) - at - MESSAGE_AT);
    return n;
}

/* A block gives its packets, and no other octet changes. */
static void expect_packets(size_t block, size_t n)
{
    uint8_t right[PACKETS_WORDS * 8];
    if (capture_block(block, n) != DZ_OK) return;
    memcpy(right, words_before(PACKETS), sizeof right);
    expect(words(ANSWER)[0] == put_packets(right, octets(TRACE) + block), "another length of a block's packets");
    expect(!memcmp(octets(PACKETS), right, sizeof right), "other packets");
}

/* A trace gives the capture that its head and its blocks give one after another. */
static void expect_capture(size_t n, size_t length)
{
    static const uint8_t head[DZ_CAPTURE_HEAD_OCTETS] = {0xa1, 0xb2, 0x3c, 0x4d, 0, 2, 0, 4, 0, 0, 0, 0, 0, 0, 0, 0, 0, 0, 0xff, 0xff, 0, 0, 0, 1};
    size_t at = DZ_CAPTURE_HEAD_OCTETS;
    capture_begin();
    expect(!memcmp(octets(PACKETS), head, sizeof head) && !memcmp(octets(CAPTURE), head, sizeof head), "another head");
    memset(words(EXPORTER), 0, DZ_EXPORTER_WORDS * 8);
    for (size_t block = 0; block < n; block += DZ_BLOCK_OCTETS, at += words(ANSWER)[0]) {
        expect_packets(block, DZ_BLOCK_OCTETS);
        expect(!memcmp(octets(CAPTURE) + at, octets(PACKETS), words(ANSWER)[0]), "another capture than block by block");
    }
    expect(at == length, "another length than block by block");
}

/* Where the record behind one stands that ends at an octet of a trace: there, or in the next block. */
static size_t next_record(const uint8_t *trace, size_t at)
{
    size_t place = at % DZ_BLOCK_OCTETS;
    return place && record_end(trace + at - place, place) ? at : at - place + (place ? DZ_BLOCK_OCTETS : 0) + RECORDS_AT;
}

/* Whether two traces have the same records, of some octets each. */
static int same_records(const uint8_t *a, size_t n, const uint8_t *b, size_t m)
{
    size_t i = next_record(a, 0), k = next_record(b, 0);
    while (i < n && k < m) {
        size_t length = MESSAGE_AT + get(a + i + LENGTH_AT, 2);
        if (get(b + k + LENGTH_AT, 2) + MESSAGE_AT != length || memcmp(a + i, b + k, length)) return 0;
        i = next_record(a, i + length);
        k = next_record(b, k + length);
    }
    return i >= n && k >= m;
}

/* A trace of one port in TRACE: that of a capture, as it is or with its numbers moved on. */
static size_t one_port_trace(void)
{
    struct file x;
    size_t length;
    any_capture(&x);
    uint64_t port = 1 + below(DZ_PORTS);
    if (stream(port, x.length, &length) != DZ_OK || length > TRACE_OCTETS) length = 0;
    memcpy(octets(TRACE), streamed, length);
    for (size_t at = length; one_in(2) && at > 0; at -= DZ_BLOCK_OCTETS) {
        uint8_t *b = octets(TRACE) + at - DZ_BLOCK_OCTETS;
        put(b + NUMBER_AT, 4, get(b + NUMBER_AT, 4) + 7);
        seal(b);
    }
    return length;
}

/* Moves the last record of a trace to the last time that a capture can hold, or one behind it; or to another port. */
static void change_last_record(size_t n)
{
    uint8_t *b = octets(TRACE) + n - DZ_BLOCK_OCTETS;
    size_t at = RECORDS_AT;
    while (record_end(b, at) && record_end(b, record_end(b, at))) at = record_end(b, at);
    if (one_in(2)) b[at + PORT_AT] = (uint8_t)(1 + below(DZ_PORTS));
    else put(b + at, 8, (last_second + 1) * second_nanos - below(2));
    if (at == RECORDS_AT) memcpy(b + FIRST_TIME_AT, b + at, 8);
    seal(b);
}

/* A trace to be exported: of one port or of several, sound or damaged. */
static size_t any_exported(void)
{
    static uint64_t live[DZ_PORTS_WORDS];
    size_t n = one_in(6) ? any_trace(live) : one_port_trace();
    if (n > 0 && one_in(4)) change_last_record(n);
    return one_in(4) ? damage_trace(n) : n;
}

/* A block under words of every kind. */
static void try_packets(size_t block)
{
    static const size_t lengths[] = {0, 1, DZ_BLOCK_OCTETS - 1, DZ_BLOCK_OCTETS + 1};
    const uint8_t *b = octets(TRACE) + block;
    uint64_t *w = words(EXPORTER);
    w[DZ_EXPORTER_NEXT] = one_in(2) ? 0 : nearby(get(b + NUMBER_AT, 4));
    w[DZ_EXPORTER_LAST] = one_in(2) ? 0 : nearby(get(b + FIRST_TIME_AT, 8));
    w[DZ_EXPORTER_PORT] = one_in(3) ? 0 : one_in(4) ? edge() : first_port(b) + (one_in(4) ? (uint64_t)1 << (8 + below(56)) : 0);
    size_t n = one_in(8) ? lengths[below(sizeof lengths / sizeof *lengths)] : DZ_BLOCK_OCTETS;
    expect_packets(block, n <= TRACE_OCTETS - block ? n : 0);
}

/* An export has the records of its trace, and read again under its own port it gives them back. */
static void try_exports(void)
{
    size_t n = any_exported(), length = DZ_CAPTURE_HEAD_OCTETS;
    uint8_t packets[PACKETS_WORDS * 8];
    dz_answer right = export_answer(n);
    for (size_t at = 0; right == DZ_OK && at < n; at += DZ_BLOCK_OCTETS) length += put_packets(packets, octets(TRACE) + at);
    try_packets(below(n / DZ_BLOCK_OCTETS + 1) * DZ_BLOCK_OCTETS % TRACE_OCTETS);
    size_t room = any_room(length, CAPTURE_OCTETS);
    if (must_be(export(room, n), right == DZ_OK && length > room ? DZ_REFUSED_ROOM : right) != DZ_OK) return;
    expect(words(ANSWER)[0] == length, "another length of a capture");
    expect(!memcmp(octets(CAPTURE) + length, (const uint8_t *)words_before(CAPTURE) + length, room - length), "octets past the capture have changed");
    expect_capture(n, length);
    must_be(try_import(n ? first_port(octets(TRACE)) : 1, length), DZ_OK);
    size_t again;
    must_be(stream(n ? first_port(octets(TRACE)) : 1, length, &again), DZ_OK);
    expect(same_records(octets(TRACE), n, streamed, again), "an export that is read again gives other records");
}

/* Captures, without a fault and with some. */
static void try_captures(void)
{
    struct file x;
    any_capture(&x);
    for (uint64_t left = one_in(2) ? 0 : 1 + below(2); left > 0; left--) damage_capture(&x);
    try_packet_heads(&x);
    uint64_t port = any_port();
    try_import(port, x.length);
}

/* A port's slots, asked in each way that there is, tell the same. */
static void try_slots(void)
{
    uint64_t port = one_in(2) ? 1 + below(2) : any_port(), t = one_in(2) && is_port(port) ? last_of(port) + below(2000000000) : any_time();
    size_t slot = one_in(8) ? (size_t)edge() : below(DZ_SLOTS + 2);
    const uint64_t *r = words(RECORD), *c = words(FOUND) + DZ_FOUND_CANDIDATE;
    if (status(port) != DZ_OK) return;
    expect((int64_t)words(FOUND)[DZ_STATUS_INTERVAL] >= -3 && (int64_t)words(FOUND)[DZ_STATUS_INTERVAL] <= 4, "an interval out of range");
    record(port, slot);
    expect(slot < DZ_SLOTS || !r[DZ_R_HELD], "a record past the last slot");
    for (int i = 0; i < DZ_RECORD_WORDS; i++) expect(r[DZ_R_HELD] || !r[i], "words of a record that is none");
    if (candidate(port, slot, t) != DZ_OK) return;
    for (int i = 0; i < DZ_FOUND_WORDS; i++) expect(words(FOUND)[DZ_FOUND] || !words(FOUND)[i], "words of a candidate that is none");
    expect(words(FOUND)[DZ_FOUND] == (r[DZ_R_RECEIPTS] > 1 && is_recent(port, t, r[DZ_R_OLDER]) && r[DZ_R_STEPS] < DZ_STEPS_DISTANT), "a candidate without a qualified record, or none with one");
    if (!words(FOUND)[DZ_FOUND]) return;
    expect(c[DZ_C_PORT] == port && c[DZ_C_SENDER_CLOCK] == r[DZ_R_SENDER_CLOCK] && c[DZ_C_SENDER_PORT] == r[DZ_R_SENDER_PORT], "a candidate of another port or sender");
    expect(same_words(c + DZ_C_PRIORITY1, r + DZ_R_PRIORITY1, DZ_C_STEPS - DZ_C_PRIORITY1 + 1) && c[DZ_C_WRFLAGS] == r[DZ_R_WRFLAGS], "a candidate of other data than its record");
}

static void try_intervals(void)
{
    uint64_t port = any_port();
    int8_t k = (int8_t)(one_in(4) ? any() : below(8) - 3);
    if (set_interval(port, k) != DZ_OK) return;
    expect_own_words(PORTS, port, DZ_PORTS_WORDS);
    status(port);
    expect((int64_t)words(FOUND)[DZ_STATUS_INTERVAL] == k, "another interval than the one that was set");
}

/* The best of a port is the first of the ranked list of its candidates. */
static void try_best(void)
{
    uint64_t port = any_port(), t = one_in(2) && is_port(port) ? last_of(port) : any_time();
    size_t n = 0;
    if (best(port, t) != DZ_OK) return;
    for (size_t slot = 0; slot < DZ_SLOTS; slot++) {
        candidate(port, slot, t);
        if (words(FOUND)[DZ_FOUND]) memcpy(words(RUN) + DZ_CANDIDATE_WORDS * n++, words(FOUND) + DZ_FOUND_CANDIDATE, DZ_CANDIDATE_WORDS * 8);
    }
    rank(0, n, LIST);
    expect(words(BEST)[DZ_FOUND] == (n > 0) && words(LIST)[DZ_LIST_COUNT] == (n > 0), "a best without a candidate, or none with one");
    expect(same_words(words(BEST) + DZ_FOUND_CANDIDATE, words(LIST) + DZ_LIST_FIRST, DZ_CANDIDATE_WORDS), "the best is not the first of the ranked list");
}

/* Every port's decision in one call is that of the pieces: each port's best, the ranked list of them, each port decided; and the
   parent is on the port that is told S1. */
static void try_deciding_all(void)
{
    uint64_t t = one_in(4) ? any_time() : present(), found[DZ_FOUND_WORDS], followed = 0;
    size_t n = 0;
    any_own();
    if (one_in(8)) widen(words(OWN), own_bits, DZ_OWN_WORDS);
    if (decide_all(t) != DZ_OK) return;
    for (uint64_t p = 1; p <= DZ_PORTS; p++) {
        dz_best(words(PORTS), p, t, found);
        if (found[DZ_FOUND]) memcpy(words(RUN) + DZ_CANDIDATE_WORDS * n++, found + DZ_FOUND_CANDIDATE, DZ_CANDIDATE_WORDS * 8);
    }
    rank(0, n, OTHER);
    expect(same_words(words(LIST), words(OTHER), DZ_LIST_WORDS), "the list is not the ranked list of the ports' bests");
    forget_the_rest(LIST);
    parent();
    memcpy(found, words(FOUND), sizeof found);
    expect(!found[DZ_FOUND] || same_words(found + DZ_FOUND_CANDIDATE, words(LIST) + DZ_LIST_FIRST, DZ_CANDIDATE_WORDS), "the parent is not the first of the list");
    for (uint64_t p = 1; p <= DZ_PORTS; p++) {
        best(p, t);
        words(BEST)[DZ_FOUND_CANDIDATE + DZ_C_PORT] = any(); /* is not looked at */
        decide(p);
        expect(octets(DECISIONS)[p - 1] == words(ANSWER)[0], "a port is decided otherwise alone");
        if (words(ANSWER)[0] == DZ_S1) followed++, expect(found[DZ_FOUND_CANDIDATE + DZ_C_PORT] == p, "the parent is on another port than S1");
    }
    expect(found[DZ_FOUND] == followed, "a parent without S1, or S1 without a parent");
}

/* A decision by words of every kind: ranked lists and others, words that fit and words that do not. */
static void try_deciding(void)
{
    uint64_t port = any_port(), decision;
    size_t n = below(8);
    any_own();
    any_run(n + 1);
    rank(0, n, LIST);
    forget_the_rest(LIST);
    words(BEST)[DZ_FOUND] = below(3);
    memcpy(words(BEST) + DZ_FOUND_CANDIDATE, words(RUN) + n * DZ_CANDIDATE_WORDS, DZ_CANDIDATE_WORDS * 8);
    words(BEST)[DZ_FOUND_CANDIDATE + DZ_C_PORT] = edge();
    if (one_in(3)) damage_list(LIST);
    if (one_in(8)) widen(words(OWN), own_bits, DZ_OWN_WORDS);
    if (one_in(8)) widen(words(BEST) + DZ_FOUND_CANDIDATE, candidate_bits, DZ_CANDIDATE_WORDS);
    parent();
    if (decide(port) != DZ_OK) return;
    decision = words(ANSWER)[0];
    words(BEST)[DZ_FOUND_CANDIDATE + DZ_C_PORT] = edge();
    if (words(BEST)[DZ_FOUND] == 0) fill(words(BEST) + DZ_FOUND_CANDIDATE, DZ_CANDIDATE_WORDS);
    forget_the_rest(LIST);
    decide(port);
    expect(words(ANSWER)[0] == decision, "words that are not looked at have changed a decision");
}

/* Ranking two runs and merging gives the ranked list of both together; a list merged with itself is itself. */
static void try_ranking(void)
{
    const size_t most = DZ_PORTS * DZ_SLOTS;
    size_t n = kind == CROWDED ? most - 8 + below(16) : one_in(8) ? below(LONGEST_RUN) : below(20), m = one_in(8) ? LONGEST_RUN - n : 1 + below(20), all;
    uint64_t *c;
    if (n + m > LONGEST_RUN) m = LONGEST_RUN - n;
    all = n + m;
    any_run(all);
    c = words(RUN) + below(all) * DZ_CANDIDATE_WORDS;
    if (one_in(6)) c[DZ_C_PORT] = any_port();
    if (one_in(6)) widen(words(RUN) + below(all) * DZ_CANDIDATE_WORDS, candidate_bits, DZ_CANDIDATE_WORDS);
    if (one_in(3)) rank(0, most + 1 + below(LONGEST_RUN - most), MERGED); /* too many, whatever they are */
    if (rank(0, n, LIST) != DZ_OK || rank(n, m, OTHER) != DZ_OK) return;
    forget_the_rest(LIST);
    forget_the_rest(OTHER);
    merge(LIST, OTHER);
    if (all <= most) {
        rank(0, all, TOGETHER);
        expect(same_words(words(MERGED), words(TOGETHER), DZ_LIST_WORDS), "merging is not ranking together");
    }
    merge(OTHER, OTHER);
    expect(same_words(words(MERGED), words(OTHER), DZ_LIST_AT(words(OTHER)[DZ_LIST_COUNT])), "a list merged with itself is another");
    damage_list(one_in(2) ? LIST : OTHER);
    if (one_in(4)) damage_list(OTHER);
    merge(LIST, OTHER);
}

/* A compared with B and B with A answer the same, the other way round; a set compared with itself is error-2. */
static void try_comparing(void)
{
    static const uint8_t mirror[] = {0, DZ_B_BETTER, DZ_A_BETTER, DZ_B_BETTER_BY_TOPOLOGY, DZ_A_BETTER_BY_TOPOLOGY, DZ_ERROR_1, DZ_ERROR_2};
    uint64_t forth;
    any_candidate(words(SET));
    any_candidate(words(RIVAL));
    words(SET)[DZ_S_RECEIVER_PORT] = below(4), words(RIVAL)[DZ_S_RECEIVER_PORT] = below(4);
    if (one_in(2)) memcpy(words(SET), words(RIVAL), DZ_C_STEPS * 8);
    if (one_in(6)) widen(words(one_in(2) ? SET : RIVAL), set_bits, DZ_SET_WORDS);
    if (compare(SET, RIVAL) != DZ_OK) return;
    forth = words(ANSWER)[0];
    compare(RIVAL, SET);
    expect(mirror[forth] == words(ANSWER)[0], "the mirrored comparison answers otherwise");
    compare(SET, SET);
    expect(words(ANSWER)[0] == DZ_ERROR_2, "a set is not as good as itself");
}

/* What was read can be written and is read again. */
static void expect_round_trip(size_t at, size_t l)
{
    uint64_t read[DZ_MESSAGE_WORDS];
    memcpy(read, words(MESSAGE), sizeof read);
    memcpy(octets(TAIL), octets(FRAME) + at, l);
    expect(write_frame(OCTETS, l) == DZ_OK && words(ANSWER)[0] == at + l, "what was read cannot be written");
    expect(read_frame(OUT, at + l) == DZ_OK && same_words(read, words(MESSAGE), DZ_MESSAGE_WORDS), "reading what was written gives another message");
    expect(!memcmp(octets(OUT) + at, octets(TAIL), l), "another tail");
}

/* Whether a whole TLV with L octets of data is a known White Rabbit message with a wrong data size. */
static int is_misfit(const uint8_t *o, uint64_t l)
{
    static const uint8_t form[] = {0x08, 0x00, 0x30, DZ_EXAMPLE_MAGIC >> 8, DZ_EXAMPLE_MAGIC & 0xFF, 1}, sizes[] = {0, 0, 0, 6, 16, 0};
    if (get(o, 2) != 3 || l < 8 || memcmp(o + 4, form, sizeof form)) return 0;
    uint64_t number = get(o + 10, 2);
    if (number == 0x2000) return l != 8 + 2;
    return number >= DZ_LINK_SLAVE_PRESENT && number <= DZ_LINK_WR_MODE_ON && l != 8u + sizes[number - DZ_LINK_SLAVE_PRESENT];
}

/* A walk from any octet but 0 is refused as reading is before 6, and else tells what stands there alone: a TLV, 6 or 7 with that place, nothing at
   messageLength and past it. An octet of the fixed part stands for the tail's start. */
static void expect_astray(size_t n, dz_answer read, uint64_t from)
{
    const uint8_t *o = octets(FRAME);
    const uint64_t *tlv = words(FOUND);
    dz_answer answer = walk(n, from);
    if (from == 0 || (read != DZ_OK && !dz_place(read))) {
        must_be(answer, read);
        return;
    }
    uint64_t size = fixed_size(o[0] % 16), end = get(o + 2, 2), at = from < size ? size : from, left = at < end ? end - at : 0;
    uint64_t l = left < 4 ? 0 : get(o + at + 2, 2);
    if (!left) {
        must_be(answer, DZ_OK);
        expect(!tlv[DZ_FOUND], "a TLV past the end of the message");
    } else if (left < 4 || l % 2 || l > left - 4) {
        must_be(answer, at << 8 | DZ_REFUSED_TLV);
    } else if (is_misfit(o + at, l)) {
        must_be(answer, at << 8 | DZ_REFUSED_WRBAD);
    } else {
        must_be(answer, DZ_OK);
        expect(tlv[DZ_FOUND] && tlv[DZ_TLV_AT] == at && tlv[DZ_TLV_TYPE] == get(o + at, 2) && tlv[DZ_TLV_LENGTH] == l, "another TLV than the one that stands there");
    }
}

/* A walk is refused as reading is, or goes from the tail's start to its end, and the first TLV of a type that it meets is the one that is looked up. */
static void expect_walk(size_t n, dz_answer read, uint64_t at, uint64_t l)
{
    const uint64_t *tlv = words(FOUND), end = at + l;
    must_be(walk(n, 0), read);
    while (read == DZ_OK && tlv[DZ_FOUND]) {
        expect(tlv[DZ_TLV_AT] == at && tlv[DZ_TLV_DATA_AT] == at + 4 && tlv[DZ_TLV_END] == at + 4 + tlv[DZ_TLV_LENGTH], "a TLV that does not stand where the one before ended");
        expect(octets(FRAME)[at + 1] == tlv[DZ_TLV_TYPE] % 256 && octets(FRAME)[at + 3] == tlv[DZ_TLV_LENGTH] % 256, "another TLV");
        at = tlv[DZ_TLV_END];
        must_be(walk(n, at), DZ_OK);
    }
    if (read == DZ_OK) expect(at == end, "a walk that ends before the tail does");
    expect_astray(n, read, one_in(8) ? edge() : below(n + 8));
}

/* All that reads a message refuses it as reading does, or answers what lies in it. */
static void try_reading(void)
{
    size_t n = any_frame(FRAME, any_type());
    dz_answer read = read_frame(FRAME, n), other;
    uint64_t type = words(MESSAGE)[DZ_M_TYPE], at = words(FOUND)[DZ_TAIL_AT], l = words(FOUND)[DZ_TAIL_LENGTH];
    uint16_t sought = (uint16_t)below(8);
    if (read == DZ_OK) {
        expect(at + l <= n, "a tail past the end");
        expect_round_trip(at, l);
    }
    must_be(look_up(n, sought), read);
    if (read == DZ_OK && words(FOUND)[DZ_FOUND]) {
        const uint8_t *data = octets(FRAME) + words(FOUND)[DZ_FOUND_DATA_AT];
        expect(words(FOUND)[DZ_FOUND_DATA_AT] + words(FOUND)[DZ_FOUND_DATA_LENGTH] <= at + l, "data past the end");
        expect(data[-3] == sought && data[-1] == words(FOUND)[DZ_FOUND_DATA_LENGTH] % 256, "data of another TLV");
    }
    expect_walk(n, read, at, l);
    other = suffix(n);
    must_be(other, read || type == DZ_ANNOUNCE ? read : DZ_REFUSED_TYPE);
    if (other == DZ_OK) expect(words(FOUND)[DZ_FOUND_WRFLAGS] <= (DZ_WRFLAGS_CONFIG | DZ_WRFLAGS_CALIBRATED | DZ_WRFLAGS_MODE_ON), "wrFlags past 15");
    must_be(link_message(FRAME, n), read || type == DZ_SIGNALING ? read : DZ_REFUSED_TYPE);
}

/* What asking for the origin time of a Sync must answer; `sync` are its words, those of the Follow_Up stand in MESSAGE. */
static dz_answer origin_answer(dz_answer read, const uint64_t *sync, dz_answer read_follow)
{
    const uint64_t *follow = words(MESSAGE);
    if (read != DZ_OK) return read;
    if (sync[DZ_M_TYPE] != DZ_SYNC) return DZ_REFUSED_TYPE;
    if (!(sync[DZ_M_FLAGS] & DZ_FLAG_TWO_STEP)) return DZ_OK;
    if (read_follow != DZ_OK) return read_follow;
    return follow[DZ_M_TYPE] == DZ_FOLLOW_UP && follow[DZ_M_CLOCK] == sync[DZ_M_CLOCK] && follow[DZ_M_PORT] == sync[DZ_M_PORT] && follow[DZ_M_DOMAIN] == sync[DZ_M_DOMAIN]
        && follow[DZ_M_SEQUENCE] == sync[DZ_M_SEQUENCE] ? DZ_OK : DZ_REFUSED_TYPE;
}

/* The origin time is that of the Sync, or that of its Follow_Up. */
static void try_origin(void)
{
    size_t n = any_frame(FRAME, one_in(8) ? any_type() : DZ_SYNC), k = any_frame(FOLLOW, one_in(8) ? any_type() : DZ_FOLLOW_UP);
    uint64_t sync[DZ_MESSAGE_WORDS];
    const uint64_t *from;
    dz_answer read, read_follow;
    if (!one_in(4)) memcpy(octets(FOLLOW) + 20, octets(FRAME) + 20, 12); /* sender and sequenceId */
    if (!one_in(4)) octets(FOLLOW)[4] = octets(FRAME)[4]; /* domain */
    read = read_frame(FRAME, n);
    memcpy(sync, words(MESSAGE), sizeof sync);
    read_follow = read_frame(FOLLOW, k);
    if (must_be(origin(n, k), origin_answer(read, sync, read_follow)) != DZ_OK) return;
    from = sync[DZ_M_FLAGS] & DZ_FLAG_TWO_STEP ? words(MESSAGE) : sync;
    expect(words(FOUND)[DZ_STAMP_SECONDS] == from[DZ_M_SECONDS] && words(FOUND)[DZ_STAMP_NANOS] == from[DZ_M_NANOS], "the origin time of another message");
}

/* What was written into OUT is `length` octets and no more. */
static void expect_written(size_t room, size_t length)
{
    expect(words(ANSWER)[0] == length, "another length");
    expect(!memcmp(octets(OUT) + length, (const uint8_t *)words_before(OUT) + length, room - length), "octets past the message have changed");
}

static int is_message(const uint64_t *m)
{
    const uint8_t *bits = message_bits(m[DZ_M_TYPE]);
    return bits && fits(m, bits, DZ_MESSAGE_WORDS) && (m[DZ_M_TYPE] == DZ_SIGNALING || m[DZ_M_NANOS] < 1000000000);
}

/* A message is written where its words fit and its tail is whole, and then it is read as it was. */
static void try_writing(void)
{
    uint64_t m[DZ_MESSAGE_WORDS];
    size_t room = one_in(4) ? below(200) : OCTETS, n = any_tail(octets(TAIL)), size;
    int damaged = n > 0 && one_in(6);
    any_message(words(MESSAGE), any_type());
    if (one_in(6)) set_to_edge(words(MESSAGE), DZ_MESSAGE_WORDS);
    if (one_in(6) && message_bits(words(MESSAGE)[DZ_M_TYPE])) widen(words(MESSAGE), message_bits(words(MESSAGE)[DZ_M_TYPE]), DZ_MESSAGE_WORDS);
    if (damaged) change_octet(octets(TAIL), n);
    memcpy(m, words(MESSAGE), sizeof m);
    size = fixed_size(m[DZ_M_TYPE]) + n;
    dz_answer answer = write_frame(room, n);
    if (!is_message(m)) must_be(answer, DZ_REFUSED_FIELD);
    else if (!damaged) must_be(answer, size > room ? DZ_REFUSED_ROOM : DZ_OK);
    if (answer != DZ_OK) return;
    expect_written(room, size);
    for (int i = 0; i < DZ_MESSAGE_WORDS; i++)
        if (!message_bits(m[DZ_M_TYPE])[i]) m[i] = 0;
    expect(read_frame(OUT, size) == DZ_OK && same_words(m, words(MESSAGE), DZ_MESSAGE_WORDS), "what was written is read as another message");
}

/* The same for a Signaling with a link message, and for the suffix of an Announce. */
static void try_writing_links(void)
{
    uint64_t l[DZ_LINK_MESSAGE_WORDS], flags = any() % 65536;
    size_t room = one_in(4) ? below(100) : OCTETS, size;
    any_message(words(MESSAGE), one_in(12) ? any_type() : DZ_SIGNALING);
    any_link(words(LINK));
    if (one_in(6)) set_to_edge(words(MESSAGE), DZ_MESSAGE_WORDS);
    if (one_in(12)) words(LINK)[DZ_L_NUMBER] = one_in(2) ? edge() : DZ_LINK_SLAVE_PRESENT - 1 + below(8);
    if (one_in(6) && link_bits(words(LINK)[DZ_L_NUMBER])) widen(words(LINK), link_bits(words(LINK)[DZ_L_NUMBER]), DZ_LINK_MESSAGE_WORDS);
    memcpy(l, words(LINK), sizeof l);
    const uint8_t *bits = link_bits(l[DZ_L_NUMBER]);
    size = 44 + 12 + (l[DZ_L_NUMBER] == DZ_LINK_CALIBRATE ? 6 : l[DZ_L_NUMBER] == DZ_LINK_CALIBRATED ? 16 : 0);
    int whole = words(MESSAGE)[DZ_M_TYPE] == DZ_SIGNALING && is_message(words(MESSAGE)) && bits && fits(l, bits, DZ_LINK_MESSAGE_WORDS);
    if (must_be(write_link(room), !whole ? DZ_REFUSED_FIELD : size > room ? DZ_REFUSED_ROOM : DZ_OK) == DZ_OK) {
        expect_written(room, size);
        for (int i = 0; i < DZ_LINK_MESSAGE_WORDS; i++)
            if (!bits[i]) l[i] = 0;
        expect(link_message(OUT, size) == DZ_OK && words(FOUND)[DZ_FOUND] == 1 && same_words(l, words(FOUND) + DZ_FOUND_LINK_MESSAGE, DZ_LINK_MESSAGE_WORDS), "another link message");
    }
    write_suffix((uint16_t)flags);
    expect(octets(OUT)[12] == 0 && octets(OUT)[13] == flags % 16, "other wrFlags");
}

/* An event of a link, mostly the one that brings it on, so that links come up. */
static uint64_t any_event(uint64_t port)
{
    static const uint16_t onward[2][DZ_STATE_RESP_CALIB_REQ + 1] = {
        [DZ_ROLE_SLAVE] = {START, DZ_LINK_LOCK, DZ_LINK_LOCKED, DONE, DZ_LINK_CALIBRATE, DONE, DZ_LINK_WR_MODE_ON, DZ_LINK_CALIBRATED},
        [DZ_ROLE_MASTER] = {DZ_LINK_SLAVE_PRESENT, DZ_LINK_LOCK, DZ_LINK_LOCKED, DONE, DZ_LINK_CALIBRATE, DONE, DZ_LINK_CALIBRATE, DZ_LINK_CALIBRATED},
    };
    uint64_t told[DZ_STEP_WORDS] = {0};
    dz_link_status(words(LINKS), port, told);
    if (!one_in(4)) return onward[told[DZ_T_ROLE] % 2][told[DZ_T_STATE] % 8];
    return one_in(2) ? DZ_LINK_SLAVE_PRESENT + below(7) : below(EVENTS);
}

/* A step leaves the link as its status tells it afterwards; other links stay. */
static void try_links(void)
{
    uint64_t port = one_in(2) ? 1 + below(2) : any_port();
    const uint64_t *step = words(STEP), *told = words(FOUND);
    if (one_in(6) && link_set(port, (uint8_t)below(6)) == DZ_OK) expect_own_words(LINKS, port, DZ_LINKS_WORDS);
    if (link_event(port, any_event(port)) != DZ_OK) return;
    expect_own_words(LINKS, port, DZ_LINKS_WORDS);
    expect(step[DZ_T_STATE] <= DZ_STATE_RESP_CALIB_REQ && step[DZ_T_ROLE] <= DZ_ROLE_MASTER && step[DZ_T_MODE] <= 1 && step[DZ_T_REPORT] <= 1 && step[DZ_T_SENDS] <= 2, "a step that is none");
    expect(!step[DZ_T_REPORT] || (step[DZ_T_MODE] && step[DZ_T_STATE] == DZ_STATE_IDLE), "link on without the mode, or not in IDLE");
    for (uint64_t i = 0; i < 2; i++) expect((i < step[DZ_T_SENDS]) == (link_bits(step[(i ? DZ_T_SECOND : DZ_T_FIRST) + DZ_L_NUMBER]) != NULL), "more or fewer messages than their count");
    link_status(port);
    expect(same_words(told, step, DZ_T_REPORT), "the link is not as the step left it");
    for (int i = DZ_T_REPORT; i < DZ_STEP_WORDS; i++) expect(told[i] == 0, "a link that is only looked at reports or sends");
}

/* Numbers of 128 bits, negative ones as their two's complement. */
typedef unsigned __int128 wide;

static wide widened(uint64_t w)
{
    return (wide)(__int128)(int64_t)w;
}

/* Strictly between -2^bits and 2^bits. */
static int is_within(wide x, int bits)
{
    return x + ((wide)1 << bits) - 1 < ((wide)1 << (bits + 1)) - 1;
}

/* A stamp of an exchange, in nanoseconds times 2^16. */
static wide stamp(int seconds, uint64_t fraction)
{
    return ((wide)words(EXCHANGE)[seconds] * 1000000000 + words(EXCHANGE)[seconds + 1]) * 65536 + fraction;
}

static int is_in_limits(const uint64_t *x)
{
    return fits(x, exchange_bits, DZ_EXCHANGE_WORDS) && x[DZ_E_T1_NANOS] < 1000000000 && x[DZ_E_T2_NANOS] < 1000000000 && x[DZ_E_T3_NANOS] < 1000000000
        && x[DZ_E_T4_NANOS] < 1000000000 && is_within(widened(x[DZ_E_SYNC]), 47) && is_within(widened(x[DZ_E_FOLLOW]), 47) && is_within(widened(x[DZ_E_RESP]), 47)
        && is_within(widened(x[DZ_E_ASYMMETRY]), 39);
}

/* An exchange, mostly of stamps that lie near each other. */
static void any_exchange(uint64_t *x)
{
    uint64_t t = below((uint64_t)1 << 47);
    for (int i = 0; i < DZ_EXCHANGE_WORDS; i++) x[i] = one_in(30) ? edge() : below(exchange_bits[i] == 16 ? 65536 : 1000000);
    if (!one_in(4)) x[DZ_E_T1_SECONDS] = x[DZ_E_T2_SECONDS] = x[DZ_E_T3_SECONDS] = x[DZ_E_T4_SECONDS] = t;
    if (one_in(4)) x[DZ_E_ASYMMETRY] = cut(any(), SIGNED | 40);
    if (one_in(4)) widen(x, exchange_bits, DZ_EXCHANGE_WORDS);
}

/* Delay and offset of an exchange within its limits make up t2 - t1; any other is refused. */
static void try_measuring(void)
{
    const uint64_t *x = words(EXCHANGE), *d = words(ANSWER);
    any_exchange(words(EXCHANGE));
    wide t1 = stamp(DZ_E_T1_SECONDS, 0) + widened(x[DZ_E_SYNC]) + widened(x[DZ_E_FOLLOW]), t2 = stamp(DZ_E_T2_SECONDS, x[DZ_E_T2_FRACTION]);
    wide t3 = stamp(DZ_E_T3_SECONDS, x[DZ_E_T3_FRACTION]), t4 = stamp(DZ_E_T4_SECONDS, 0) - widened(x[DZ_E_RESP]);
    if (must_be(measure(), is_in_limits(x) && is_within(t4 - t1, 47) && is_within(t3 - t2, 47) ? DZ_OK : DZ_REFUSED_RANGE) != DZ_OK) return;
    expect(d[DZ_D_REST] < 65536000000000, "a rest of a second or more");
    expect(widened(d[DZ_D_DELAY]) + widened(d[DZ_D_SECONDS]) * 65536000000000 + d[DZ_D_REST] == t2 - t1, "delay and offset are not t2 - t1");
}

/* ---- all of them --------------------------------------------------------------------------------------------------------------- */

static void (*const tries[])(void) = {try_announces, try_announces, try_announces, try_bursts, try_bursts, try_recording, try_traces, try_frames, try_captures, try_exports, try_slots, try_intervals, try_best, try_deciding_all,
    try_deciding, try_ranking, try_comparing, try_reading, try_origin, try_writing, try_writing_links, try_links, try_links, try_measuring};

/* One of the tries; most are the one that the kind of history is about. */
static void try_one(void)
{
    int own = !one_in(5);
    size_t i = below(sizeof tries / sizeof *tries);
    (own && kind == REPEATING ? try_announces : own && kind == CROWDED ? try_ranking : tries[i])();
}

/* A new history begins: on fresh state, or on any words at all. */
static void begin_history(uint64_t which)
{
    kind = which % KINDS;
    now = 0;
    memset(words(PORTS), 0, DZ_PORTS_WORDS * 8);
    memset(words(LINKS), 0, DZ_LINKS_WORDS * 8);
    if (kind == ANY_WORDS) fill(words(PORTS), DZ_PORTS_WORDS), fill(words(LINKS), DZ_LINKS_WORDS);
}

int main(int count, char **arguments)
{
    const uint64_t enough = 200000, history = 5000;
    uint64_t most = count > 1 ? strtoull(arguments[1], NULL, 10) : enough;
    seed = count > 2 ? strtoull(arguments[2], NULL, 10) : 0;
    chance = seed * 2 + 1;
    expect(dz_version() == DZ_VERSION, "the library is of another version than the header");
    lay_out();
    fill(memory, sizeof memory / 8);
    for (uint64_t which = 0; calls < most; which++)
        for (begin_history(which); calls < most && calls < (which + 1) * history; ) try_one();
    printf("seed %" PRIu64 ": %" PRIu64 " calls, their answers %016" PRIx64 ", of refusals 1 to 22:", seed, calls, digest);
    for (int i = 1; i <= DZ_REFUSED_EXPORT; i++) printf(" %" PRIu64, answers[i]);
    printf("\n");
    calling = "all calls";
    for (int i = 1; i <= DZ_REFUSED_EXPORT; i++) expect(answers[i] > 0 || most < enough, "a number was never given");
    return 0;
}
