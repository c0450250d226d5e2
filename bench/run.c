/* run ROW SIDE TURNS    makes one call of include/dzervolat.h over and over; SIDE is `ours`, `hand` or `nothing`. What is counted.
   run ROW same          makes it by both in turn, and ends with status 1 where they do not answer the same words.
   run ROW time          prints the nanoseconds of a call, ours and by hand: the least of several runs, less that of a function that does nothing.
   run flood             prints the words of the ports after one of them has refused 99,999 new names, which the row `flooded` reads.

   For x86-64 Linux, without a C library, so that nothing else runs and is counted. */
#include "hand.h"

enum { PORT = 7, ROOM = 128, ANNOUNCE_OCTETS = 64, RUN = DZ_PORTS * DZ_SLOTS, BURST = 64, BLOCKS = 16, A_BLOCK = 5, A_PORT = DZ_PORTS_WORDS / DZ_PORTS };
/* A capture: of so many frames one in sixteen is foreign, and six of the others fill a block. */
enum { FRAMES = 64, FOREIGN = 16, FRAME_OCTETS = DZ_FRAME_HEAD_OCTETS + ANNOUNCE_OCTETS, PACKET_OCTETS = DZ_PACKET_HEAD_OCTETS + FRAME_OCTETS, CAPTURED_BLOCKS = 10 };
static const uint64_t second = 1000000000, own_clock = 1;
static const uint16_t magic = DZ_EXAMPLE_MAGIC;

/* ---- the system ---------------------------------------------------------------------------------------------------------------- */

static long system_call(long number, long a, const void *b, long c)
{
    __asm__ volatile("syscall" : "+a"(number) : "D"(a), "S"(b), "d"(c) : "rcx", "r11", "memory");
    return number;
}

static void __attribute__((noreturn)) leave(int status)
{
    for (;;) system_call(60, status, NULL, 0);
}

static uint64_t nanoseconds(void)
{
    int64_t now[2];
    system_call(228, 1, now, 0);
    return (uint64_t)now[0] * second + (uint64_t)now[1];
}

static int is_same_text(const char *a, const char *b)
{
    while (*a && *a == *b) a++, b++;
    return *a == *b;
}

static uint64_t number_of(const char *text)
{
    uint64_t n = 0;
    while (*text) n = n * 10 + (uint64_t)(*text++ - '0');
    return n;
}

static void print_number(uint64_t n, char after)
{
    char text[24], *at = text + sizeof text;
    *--at = after;
    do *--at = (char)('0' + n % 10);
    while (n /= 10);
    system_call(1, 1, at, text + sizeof text - at);
}

/* ---- what is lent -------------------------------------------------------------------------------------------------------------- */

/* All that a row's calls are lent: as it is prepared, and then for each side. */
struct lent {
    uint64_t ports[DZ_PORTS_WORDS], links[DZ_LINKS_WORDS], before[DZ_LINKS_WORDS];
    uint64_t message[DZ_MESSAGE_WORDS], tail[DZ_TAIL_WORDS], found[DZ_FOUND_WORDS], written;
    uint64_t run[RUN * DZ_CANDIDATE_WORDS], a[DZ_LIST_WORDS], b[DZ_LIST_WORDS], list[DZ_LIST_WORDS];
    uint64_t own[DZ_OWN_WORDS], set[DZ_SET_WORDS], rival[DZ_SET_WORDS], answer;
    uint64_t step[DZ_STEP_WORDS], exchange[DZ_EXCHANGE_WORDS], measured[DZ_MEASURED_WORDS];
    uint8_t announce[ANNOUNCE_OCTETS + DZ_SUFFIX_OCTETS], suffix[DZ_SUFFIX_OCTETS], out[ROOM], decisions[DZ_PORTS];
    uint64_t length, burst[BURST][DZ_BURST_WORDS];
    uint8_t ring[BURST][ANNOUNCE_OCTETS];
    uint64_t recording[DZ_RECORDING_WORDS], opened[DZ_RECORDING_WORDS], closed, reader[DZ_READER_WORDS], last, heard[A_PORT];
    uint8_t open[DZ_BLOCK_OCTETS], block[DZ_BLOCK_OCTETS], trace[BLOCKS][DZ_BLOCK_OCTETS];
    uint64_t form[DZ_FORM_WORDS], packet[DZ_PACKET_WORDS], exporter[DZ_EXPORTER_WORDS];
    uint8_t capture[DZ_CAPTURE_HEAD_OCTETS + FRAMES * PACKET_OCTETS], packets[DZ_PACKETS_OCTETS];
};
static struct lent fresh, lent[2];

/* An Announce of a grandmaster, with or without the suffix. */
static void put_announce(struct lent *m, int with_suffix)
{
    const uint64_t words[DZ_MESSAGE_WORDS] = {
        [DZ_M_TYPE] = DZ_ANNOUNCE, [DZ_M_CLOCK] = 0x001122fffe334455, [DZ_M_PORT] = 1, [DZ_M_SEQUENCE] = 7, [DZ_M_SECONDS] = 1700000000, [DZ_M_NANOS] = 123456789, [DZ_M_UTC] = 37,
        [DZ_M_PRIORITY1] = 128, [DZ_M_CLASS] = 6, [DZ_M_ACCURACY] = 0x21, [DZ_M_VARIANCE] = 0x4e5d, [DZ_M_PRIORITY2] = 128, [DZ_M_GRANDMASTER] = 0x001122fffe334455, [DZ_M_SOURCE] = 0x20,
    };
    __builtin_memcpy(m->message, words, sizeof words);
    dz_write_suffix(7, magic, m->suffix);
    dz_write(m->announce, sizeof m->announce, words, m->suffix, with_suffix ? DZ_SUFFIX_OCTETS : 0, magic, &m->length);
}

static void plain(struct lent *m) { put_announce(m, 0); }
static void with_suffix(struct lent *m) { put_announce(m, 1); }

/* Makes the Announce that of another sender and number. */
static inline void rename(struct lent *m, uint32_t name, uint16_t sequence)
{
    name = __builtin_bswap32(name);
    sequence = __builtin_bswap16(sequence);
    __builtin_memcpy(m->announce + 24, &name, sizeof name);
    __builtin_memcpy(m->announce + 30, &sequence, sizeof sequence);
}

/* Two Announces of a sender on a port: class, grandmaster and steps by its number, so that a grandmaster is heard at several distances. */
static void hear(struct lent *m, uint64_t port, uint32_t sender)
{
    for (uint16_t sequence = 1; sequence <= 2; sequence++) {
        rename(m, (uint32_t)port << 8 | sender, sequence);
        m->announce[48] = (uint8_t)(6 + sender % 4);
        m->announce[60] = (uint8_t)(sender % 8);
        m->announce[62] = (uint8_t)((port + sender) % 4);
        if (dz_take(m->ports, port, second, m->announce, m->length, 0, own_clock, magic) != DZ_OK) leave(2);
    }
}

static void full_port(struct lent *m)
{
    plain(m);
    for (uint32_t sender = 0; sender < DZ_SLOTS; sender++) hear(m, PORT, sender);
}

static void hear_all(struct lent *m, uint32_t senders)
{
    const uint64_t own[DZ_OWN_WORDS] = DZ_OWN_DEFAULT(own_clock);
    plain(m);
    __builtin_memcpy(m->own, own, sizeof own);
    for (uint64_t port = 1; port <= DZ_PORTS; port++)
        for (uint32_t sender = 0; sender < senders; sender++) hear(m, port, sender);
}

static void one_a_port(struct lent *m) { hear_all(m, 1); }
static void sixteen_a_port(struct lent *m) { hear_all(m, DZ_SLOTS); }

static void flooded_port(struct lent *m)
{
    plain(m);
    if (system_call(0, 0, m->ports, sizeof m->ports) != (long)sizeof m->ports) leave(2);
}

/* A ring of Announces of one sender, and the burst that they are. */
static void full_ring(struct lent *m)
{
    plain(m);
    for (uint64_t k = 0; k < BURST; k++) {
        const uint64_t row[DZ_BURST_WORDS] = {PORT, 0, k * ANNOUNCE_OCTETS, ANNOUNCE_OCTETS, 0};
        __builtin_memcpy(m->burst[k], row, sizeof row);
        __builtin_memcpy(m->ring[k], m->announce, ANNOUNCE_OCTETS);
    }
}

/* A recording with one record, as it is put back for each turn. */
static void one_recorded(struct lent *m)
{
    with_suffix(m);
    dz_trace_record(m->recording, m->open, PORT, second, m->announce, m->length, m->block, &m->closed);
    __builtin_memcpy(m->opened, m->recording, sizeof m->opened);
}

/* A trace of Announces with the suffix, of so many senders in turn, five a block; and a port that has heard each of them, which is put back for each turn. */
static void record_trace(struct lent *m, uint32_t senders)
{
    size_t blocks = 0;
    with_suffix(m);
    for (uint32_t sender = 0; sender < senders; sender++) hear(m, PORT, sender);
    __builtin_memcpy(m->heard, m->ports + (PORT - 1) * A_PORT, sizeof m->heard);
    for (uint32_t i = 0; i < BLOCKS * A_BLOCK; i++) {
        rename(m, PORT << 8 | i % senders, (uint16_t)(3 + i / senders));
        if (dz_trace_record(m->recording, m->open, PORT, 2 * second + i, m->announce, m->length, m->trace[blocks], &m->closed) != DZ_OK) leave(2);
        blocks += m->closed;
    }
    dz_trace_finish(m->recording, m->open, m->trace[blocks], &m->closed);
    if (blocks + m->closed != BLOCKS) leave(2);
}

static void one_recorded_sender(struct lent *m) { record_trace(m, 1); }
static void sixteen_recorded(struct lent *m) { record_trace(m, DZ_SLOTS); }

static void put_low(uint8_t *p, uint32_t v) { __builtin_memcpy(p, &v, sizeof v); }

/* A capture as tcpdump writes it on such a machine, little-endian, in microseconds: Announces, and some frames of IPv4 of as many octets. */
static void full_capture(struct lent *m)
{
    static const uint32_t head[DZ_CAPTURE_HEAD_OCTETS / 4] = {0xa1b2c3d4, 0x00040002, 0, 0, 262144, 1};
    plain(m);
    __builtin_memcpy(m->capture, head, sizeof head);
    for (uint32_t i = 0; i < FRAMES; i++) {
        uint8_t *packet = m->capture + DZ_CAPTURE_HEAD_OCTETS + i * PACKET_OCTETS, *frame = packet + DZ_PACKET_HEAD_OCTETS;
        put_low(packet, 1700000000 + i);
        put_low(packet + 4, 123456);
        put_low(packet + 8, FRAME_OCTETS);
        put_low(packet + 12, FRAME_OCTETS);
        frame[12] = i % FOREIGN ? 0x88 : 0x08;
        frame[13] = i % FOREIGN ? 0xF7 : 0x00;
        rename(m, PORT << 8, (uint16_t)i);
        __builtin_memcpy(frame + DZ_FRAME_HEAD_OCTETS, m->announce, ANNOUNCE_OCTETS);
    }
    if (dz_capture_head(m->capture, m->form) != DZ_OK) leave(2);
}

/* The trace of it. */
static void imported(struct lent *m)
{
    full_capture(m);
    if (dz_import(m->trace[0], sizeof m->trace, PORT, m->capture, sizeof m->capture, &m->written) != DZ_OK || m->written != CAPTURED_BLOCKS * DZ_BLOCK_OCTETS) leave(2);
}

/* Two sets of one grandmaster, the second higher in one word; where that is of the quality, it is another grandmaster. */
static void two_sets(struct lent *m, int word)
{
    const uint64_t set[DZ_SET_WORDS] = {128, 6, 0x21, 0x4e5d, 128, 0x001122fffe334455, 2, 0x00aabbfffe000001, 1, 0x00ccddfffe000001, 3};
    __builtin_memcpy(m->set, set, sizeof set);
    __builtin_memcpy(m->rival, set, sizeof set);
    m->rival[word]++;
    if (word < DZ_C_GRANDMASTER) m->rival[DZ_C_GRANDMASTER]++;
}

static void by_priority1(struct lent *m) { two_sets(m, DZ_C_PRIORITY1); }
static void by_identity(struct lent *m) { two_sets(m, DZ_C_GRANDMASTER); }
static void by_topology(struct lent *m) { two_sets(m, DZ_C_SENDER_CLOCK); }

static void put_candidate(uint64_t *c, uint64_t class, uint64_t grandmaster, uint64_t steps, uint64_t sender, uint64_t port, uint64_t flags)
{
    const uint64_t words[DZ_CANDIDATE_WORDS] = {128, class, 0x21, 0x4e5d, 128, 0x001122fffe334455 + grandmaster, steps, 0x00aabbfffe000001 + sender, 1, port, flags};
    __builtin_memcpy(c, words, sizeof words);
}

/* Two lists of four, of eight ports, that take turns in rank order. */
static void two_lists(struct lent *m)
{
    for (uint64_t i = 0; i < 8; i++) put_candidate(m->run + (i % 2 * 4 + i / 2) * DZ_CANDIDATE_WORDS, 6 + i, i, 2, i, i + 1, 7);
    dz_rank(m->run, 4, m->a);
    dz_rank(m->run + 4 * DZ_CANDIDATE_WORDS, 4, m->b);
}

/* Sixteen masters on each of eighteen ports, in no order: eight grandmasters of four classes, up to three steps away. */
static void long_run(struct lent *m)
{
    uint64_t x = 1;
    for (uint64_t i = 0; i < RUN; i++) {
        x = x * 6364136223846793005u + 1442695040888963407u;
        put_candidate(m->run + i * DZ_CANDIDATE_WORDS, 6 + (x >> 41 & 3), x >> 40 & 7, x >> 50 & 3, i, i % DZ_PORTS + 1, x >> 60);
    }
}

/* A slave in PRESENT, which LOCK takes to S_LOCK; it is put back for each turn. */
static void slave_present(struct lent *m)
{
    dz_link_set(m->links, PORT, DZ_CONFIG_SLAVE, 1, 3, 1000, 230000, 240000);
    dz_link_start(m->links, PORT, DZ_CONFIG_MASTER, 0, m->step);
    __builtin_memcpy(m->before, m->links, sizeof m->links);
}

/* Over 500 m of fibre, some 2,500 ns one way, with latencies of some 200 ns. */
static void put_exchange(struct lent *m, int64_t asymmetry)
{
    const uint64_t exchange[DZ_EXCHANGE_WORDS] = {
        [DZ_E_T1_SECONDS] = 1700000000, [DZ_E_T1_NANOS] = 123456789, [DZ_E_SYNC] = 1 << 20, [DZ_E_FOLLOW] = 3 << 18,
        [DZ_E_T2_SECONDS] = 1700000000, [DZ_E_T2_NANOS] = 123459731, [DZ_E_T2_FRACTION] = 4660,
        [DZ_E_T3_SECONDS] = 1700000000, [DZ_E_T3_NANOS] = 500000000, [DZ_E_T3_FRACTION] = 22136,
        [DZ_E_T4_SECONDS] = 1700000000, [DZ_E_T4_NANOS] = 500002954, [DZ_E_RESP] = 1 << 19,
        [DZ_E_MASTER_TX] = 13107200123, [DZ_E_MASTER_RX] = 14417920456, [DZ_E_SLAVE_TX] = 15728640789, [DZ_E_SLAVE_RX] = 14417921012,
        [DZ_E_ASYMMETRY] = (uint64_t)asymmetry,
    };
    __builtin_memcpy(m->exchange, exchange, sizeof exchange);
}

/* Without asymmetry, and with one of 10^-4. */
static void even_exchange(struct lent *m) { put_exchange(m, 0); }
static void uneven_exchange(struct lent *m) { put_exchange(m, 109951163); }

/* Every number near its limit, and such that as many digits as can be are to be worked out. */
static void farthest_exchange(struct lent *m)
{
    const uint64_t limit = ((uint64_t)1 << 47) - 1, latency = ((uint64_t)1 << 50) - 1;
    const uint64_t exchange[DZ_EXCHANGE_WORDS] = {
        [DZ_E_T1_SECONDS] = 1700000008, [DZ_E_T1_NANOS] = 123456789, [DZ_E_SYNC] = -limit, [DZ_E_FOLLOW] = -limit,
        [DZ_E_T2_SECONDS] = 1700000002, [DZ_E_T2_NANOS] = 700000000, [DZ_E_T2_FRACTION] = 65535,
        [DZ_E_T3_SECONDS] = 1700000000, [DZ_E_T3_NANOS] = 600000000, [DZ_E_T3_FRACTION] = 1,
        [DZ_E_T4_SECONDS] = 1700000003, [DZ_E_T4_NANOS] = 800000000, [DZ_E_RESP] = -limit,
        [DZ_E_MASTER_TX] = latency, [DZ_E_MASTER_RX] = 1, [DZ_E_SLAVE_TX] = 0, [DZ_E_SLAVE_RX] = latency,
        [DZ_E_ASYMMETRY] = ((uint64_t)1 << 39) - 1,
    };
    __builtin_memcpy(m->exchange, exchange, sizeof exchange);
}

/* ---- the rows ------------------------------------------------------------------------------------------------------------------ */

/* A call of any kind; what it takes is known where it is made. */
typedef void any_call(void);
#define CALL(call, ...) ((__typeof__(dz_##call) *)f)(__VA_ARGS__)

static dz_answer read(struct lent *m, any_call *f, uint64_t i) { return (void)i, CALL(read, m->announce, m->length, magic, m->message, m->tail); }
static dz_answer look_up(struct lent *m, any_call *f, uint64_t i) { return (void)i, CALL(lookup, m->announce, m->length, 3, magic, m->found); }
static dz_answer begin_walk(struct lent *m, any_call *f, uint64_t i) { return (void)i, CALL(walk, m->announce, m->length, 0, magic, m->found); }
static dz_answer walk_on(struct lent *m, any_call *f, uint64_t i) { return (void)i, CALL(walk, m->announce, m->length, 64, magic, m->found); }
static dz_answer write(struct lent *m, any_call *f, uint64_t i) { return (void)i, CALL(write, m->out, ROOM, m->message, m->suffix, DZ_SUFFIX_OCTETS, magic, &m->written); }
static dz_answer take(struct lent *m, any_call *f, uint64_t t) { return CALL(take, m->ports, PORT, t, m->announce, m->length, 0, own_clock, magic); }
static dz_answer take_one(struct lent *m, any_call *f, uint64_t i) { return rename(m, 0, (uint16_t)i), take(m, f, second + i); }
static dz_answer take_sixteen(struct lent *m, any_call *f, uint64_t i) { return rename(m, i % DZ_SLOTS, (uint16_t)i), take(m, f, second + i); }
static dz_answer take_new(struct lent *m, any_call *f, uint64_t i) { return rename(m, 1000000 + (uint32_t)i, (uint16_t)i), take(m, f, 2 * second + i); }
static dz_answer take_burst(struct lent *m, any_call *f, uint64_t i)
{
    for (uint64_t k = 0; k < BURST; k++) {
        uint16_t sequence = __builtin_bswap16((uint16_t)(i * BURST + k));
        m->burst[k][DZ_BURST_TIME] = second + i * BURST + k;
        __builtin_memcpy(m->ring[k] + 30, &sequence, sizeof sequence);
    }
    return CALL(take_burst, m->ports, m->ring[0], sizeof m->ring, m->burst, BURST, 0, own_clock, magic);
}

static dz_answer record(struct lent *m, any_call *f, uint64_t i) { return CALL(trace_record, m->recording, m->open, PORT, second + i, m->announce, m->length, m->block, &m->closed); }
static dz_answer record_second(struct lent *m, any_call *f, uint64_t i) { return __builtin_memcpy(m->recording, m->opened, sizeof m->recording), record(m, f, i); }
static dz_answer replay(struct lent *m, any_call *f, uint64_t i) { return (void)i, CALL(replay, m->ports, m->trace[0], sizeof m->trace, 0, own_clock, magic, &m->last); }
static dz_answer replay_block(struct lent *m, any_call *f, uint64_t i)
{
    __builtin_memcpy(m->ports + (PORT - 1) * A_PORT, m->heard, sizeof m->heard);
    m->reader[DZ_READER_NEXT] = m->reader[DZ_READER_LAST] = 0;
    return CALL(replay_block, m->ports, m->reader, m->trace[i % BLOCKS], DZ_BLOCK_OCTETS, 0, own_clock, magic);
}

static const uint8_t *packet_of(const struct lent *m, uint64_t i) { return m->capture + DZ_CAPTURE_HEAD_OCTETS + i * PACKET_OCTETS; }
static dz_answer import(struct lent *m, any_call *f, uint64_t i) { return (void)i, CALL(import, m->trace[0], sizeof m->trace, PORT, m->capture, sizeof m->capture, &m->written); }
static dz_answer export(struct lent *m, any_call *f, uint64_t i) { return (void)i, CALL(export, m->capture, sizeof m->capture, m->trace[0], CAPTURED_BLOCKS * DZ_BLOCK_OCTETS, &m->written); }
static dz_answer capture_packet(struct lent *m, any_call *f, uint64_t i) { return CALL(capture_packet, m->form, packet_of(m, i % FRAMES), m->packet); }
static dz_answer capture_record(struct lent *m, any_call *f, uint64_t i)
{
    return CALL(capture_record, m->recording, m->open, PORT, second + i, packet_of(m, 1) + DZ_PACKET_HEAD_OCTETS, FRAME_OCTETS, m->block, &m->closed);
}
static dz_answer pass_over(struct lent *m, any_call *f, uint64_t i)
{
    return CALL(capture_record, m->recording, m->open, PORT, second + i, packet_of(m, 0) + DZ_PACKET_HEAD_OCTETS, FRAME_OCTETS, m->block, &m->closed);
}
static dz_answer capture_block(struct lent *m, any_call *f, uint64_t i)
{
    m->exporter[DZ_EXPORTER_NEXT] = m->exporter[DZ_EXPORTER_LAST] = 0;
    return CALL(capture_block, m->exporter, m->trace[i % CAPTURED_BLOCKS], DZ_BLOCK_OCTETS, m->packets, &m->written);
}

static dz_answer candidate(struct lent *m, any_call *f, uint64_t i) { return CALL(candidate, m->ports, PORT, i % DZ_SLOTS, 2 * second, m->found); }
static dz_answer best(struct lent *m, any_call *f, uint64_t i) { return (void)i, CALL(best, m->ports, PORT, 2 * second, m->found); }
static dz_answer compare(struct lent *m, any_call *f, uint64_t i) { return (void)i, CALL(compare, m->set, m->rival, &m->answer); }
static dz_answer merge(struct lent *m, any_call *f, uint64_t i) { return (void)i, CALL(merge, m->a, m->b, m->list); }
static dz_answer rank(struct lent *m, any_call *f, uint64_t i) { return (void)i, CALL(rank, m->run, RUN, m->list); }
static dz_answer decide_all(struct lent *m, any_call *f, uint64_t i) { return (void)i, CALL(decide_all, m->ports, 2 * second, m->own, m->decisions, m->list); }
static dz_answer measure(struct lent *m, any_call *f, uint64_t i) { return (void)i, CALL(measure, m->exchange, m->measured); }

static dz_answer link_take(struct lent *m, any_call *f, uint64_t i)
{
    const size_t each = DZ_LINKS_WORDS / DZ_PORTS, at = (PORT - 1) * each;
    (void)i;
    __builtin_memcpy(m->links + at, m->before + at, each * sizeof *m->links);
    return CALL(link_take, m->links, PORT, DZ_LINK_LOCK, m->step);
}

enum { OURS, HAND, NOTHING };
#define BESIDE(call, by_hand) {(any_call *)dz_##call, (any_call *)c_##by_hand}
#define BOTH(call) BESIDE(call, call)
static const struct row {
    const char *name;
    any_call *calls[2];
    void (*prepare)(struct lent *);
    dz_answer (*turn)(struct lent *, any_call *, uint64_t);
    dz_answer answer;
} rows[] = {
    {"read", BOTH(read), plain, read, DZ_OK},
    {"read-suffix", BOTH(read), with_suffix, read, DZ_OK},
    {"lookup", BOTH(lookup), with_suffix, look_up, DZ_OK},
    {"walk", BOTH(walk), with_suffix, begin_walk, DZ_OK},
    {"walk-on", BOTH(walk), with_suffix, walk_on, DZ_OK},
    {"take-1", BOTH(take), plain, take_one, DZ_OK},
    {"take-16", BOTH(take), plain, take_sixteen, DZ_OK},
    {"burst", BOTH(take_burst), full_ring, take_burst, DZ_OK},
    {"full", BOTH(take), full_port, take_new, DZ_REFUSED_FULL},
    {"flooded", BOTH(take), flooded_port, take_new, DZ_REFUSED_FULL},
    {"record", BOTH(trace_record), with_suffix, record, DZ_OK},
    {"record-second", BOTH(trace_record), one_recorded, record_second, DZ_OK},
    {"replay-block-1", BOTH(replay_block), one_recorded_sender, replay_block, DZ_OK},
    {"replay-block-16", BOTH(replay_block), sixteen_recorded, replay_block, DZ_OK},
    {"replay-1", BOTH(replay), one_recorded_sender, replay, DZ_OK},
    {"replay-16", BOTH(replay), sixteen_recorded, replay, DZ_OK},
    {"import", BOTH(import), full_capture, import, DZ_OK},
    {"export", BOTH(export), imported, export, DZ_OK},
    {"capture-packet", BOTH(capture_packet), full_capture, capture_packet, DZ_OK},
    {"capture-record", BOTH(capture_record), full_capture, capture_record, DZ_OK},
    {"capture-foreign", BOTH(capture_record), full_capture, pass_over, DZ_OK},
    {"capture-block", BOTH(capture_block), imported, capture_block, DZ_OK},
    {"write", BOTH(write), plain, write, DZ_OK},
    {"candidate", BOTH(candidate), full_port, candidate, DZ_OK},
    {"best", BOTH(best), full_port, best, DZ_OK},
    {"compare-priority1", BOTH(compare), by_priority1, compare, DZ_OK},
    {"compare-identity", BOTH(compare), by_identity, compare, DZ_OK},
    {"compare-topology", BOTH(compare), by_topology, compare, DZ_OK},
    {"merge", BOTH(merge), two_lists, merge, DZ_OK},
    {"rank", BOTH(rank), long_run, rank, DZ_OK},
    {"decide-1", BOTH(decide_all), one_a_port, decide_all, DZ_OK},
    {"decide-16", BOTH(decide_all), sixteen_a_port, decide_all, DZ_OK},
    {"link", BOTH(link_take), slave_present, link_take, DZ_OK},
    {"measure", BOTH(measure), even_exchange, measure, DZ_OK},
    {"measure-uneven", BOTH(measure), uneven_exchange, measure, DZ_OK},
    {"measure-farthest", BOTH(measure), farthest_exchange, measure, DZ_OK},
    {"shifting", BESIDE(measure, measure_shifting), even_exchange, measure, DZ_OK},
    {"shifting-uneven", BESIDE(measure, measure_shifting), uneven_exchange, measure, DZ_OK},
    {"shifting-farthest", BESIDE(measure, measure_shifting), farthest_exchange, measure, DZ_OK},
};

/* Not looked into, so that its arguments are handed over though it has no use for them. */
static __attribute__((noinline)) dz_answer nothing(void)
{
    __asm__ volatile("");
    return DZ_OK;
}

/* Some turns of one side; which one it is the compiler is not to know. */
static void turn(const struct row *row, int side, struct lent *m, uint64_t turns)
{
    any_call *f = side == NOTHING ? (any_call *)nothing : row->calls[side];
    dz_answer answer = side == NOTHING ? DZ_OK : row->answer;
    __asm__ volatile("" : "+r"(f));
    for (uint64_t i = 0; i < turns; i++)
        if (row->turn(m, f, i) != answer) leave(2);
}

/* After each turn both have answered the same, and all that was lent to them holds the same words. */
static void same(const struct row *row)
{
    lent[OURS] = lent[HAND] = fresh;
    for (uint64_t i = 0; i < 3 * DZ_SLOTS; i++) {
        if (row->turn(&lent[OURS], row->calls[OURS], i) != row->answer || row->turn(&lent[HAND], row->calls[HAND], i) != row->answer) leave(1);
        for (size_t k = 0; k < sizeof fresh; k++)
            if (((uint8_t *)&lent[OURS])[k] != ((uint8_t *)&lent[HAND])[k]) leave(1);
    }
}

static uint64_t nanoseconds_of(const struct row *row, int side, uint64_t turns)
{
    uint64_t begun;
    lent[OURS] = fresh;
    begun = nanoseconds();
    turn(row, side, &lent[OURS], turns);
    return nanoseconds() - begun;
}

/* The least of several runs of some milliseconds, the sides in turn. */
static void time(const struct row *row)
{
    uint64_t least[3] = {UINT64_MAX, UINT64_MAX, UINT64_MAX}, turns = DZ_SLOTS;
    while (nanoseconds_of(row, OURS, turns) < 2000000) turns *= 2;
    for (int again = 0; again < 15; again++)
        for (int side = OURS; side <= NOTHING; side++) {
            uint64_t took = nanoseconds_of(row, side, turns);
            if (took < least[side]) least[side] = took;
        }
    for (int side = OURS; side <= HAND; side++) {
        uint64_t tenths = (least[side] - least[NOTHING]) * 10 / turns;
        print_number(tenths / 10, '.');
        print_number(tenths % 10, side == OURS ? ' ' : '\n');
    }
}

/* A full port refuses 100,000 new names less one. */
static void flood(void)
{
    full_port(&fresh);
    for (uint64_t i = 0; i < 99999; i++)
        if (take_new(&fresh, (any_call *)dz_take, i) != DZ_REFUSED_FULL) leave(2);
    system_call(1, 1, fresh.ports, sizeof fresh.ports);
}

static void run(const struct row *row, int count, char **arguments)
{
    static const char *const sides[] = {"ours", "hand", "nothing"};
    row->prepare(&fresh);
    if (is_same_text(arguments[2], "same")) same(row);
    else if (is_same_text(arguments[2], "time")) time(row);
    else
        for (int side = OURS; side <= NOTHING; side++)
            if (count == 4 && is_same_text(arguments[2], sides[side])) turn(row, side, &fresh, number_of(arguments[3]));
}

/* The stack at the start: how many arguments, then these. */
__attribute__((noreturn, used)) static void begin(long *stack)
{
    int count = (int)stack[0];
    char **arguments = (char **)(stack + 1);
    if (count == 2 && is_same_text(arguments[1], "flood")) flood(), leave(0);
    for (size_t i = 0; count > 2 && i < sizeof rows / sizeof *rows; i++)
        if (is_same_text(arguments[1], rows[i].name)) run(&rows[i], count, arguments), leave(0);
    leave(2);
}

__asm__(".globl _start\n_start: mov %rsp, %rdi\nand $-16, %rsp\ncall begin\n");
