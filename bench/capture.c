/* Captures read into traces, and traces written as captures, by hand in C. */
#include "block.h"

/* Where the fields of a file's head stand, its magic first; and those of a packet's head, its seconds first. */
enum { VERSION = 4, SNAPSHOT = 16, LINK_TYPE = 20 };
enum { FRACTION = 4, STORED = 8, ORIGINAL = 12 };
enum { ETHERTYPE = 12, PTP = 0x88F7, ETHERNET = 1, LONGEST_FRAME = 65535 };
/* What the packet of a record has before its message. */
enum { BEFORE = DZ_PACKET_HEAD_OCTETS + DZ_FRAME_HEAD_OCTETS };

static const uint32_t micro_magic = 0xa1b2c3d4, nano_magic = 0xa1b23c4d, version_2_4 = 0x00020004;
static const uint64_t second = 1000000000, last_number = 4294967295, last_second = 4294967295;

/* ---- Reading ------------------------------------------------------------------------------------------------------------------- */

static uint32_t number_at(const uint64_t *form, const uint8_t *p)
{
    uint32_t v = be32(p);
    return form[DZ_FORM_LITTLE] ? __builtin_bswap32(v) : v;
}

static uint64_t unit_of(uint32_t magic) { return magic == micro_magic ? 1000 : magic == nano_magic ? 1 : 0; }

/* The version is two numbers: turned round as one, they change places. */
static int is_version(const uint64_t *form, const uint8_t *p)
{
    uint32_t v = number_at(form, p);
    return (form[DZ_FORM_LITTLE] ? v << 16 | v >> 16 : v) == version_2_4;
}

static int read_head(const uint8_t *head, uint64_t *form)
{
    uint32_t magic = be32(head);
    form[DZ_FORM_LITTLE] = unit_of(magic) == 0;
    form[DZ_FORM_UNIT] = unit_of(number_at(form, head));
    return form[DZ_FORM_UNIT] != 0 && is_version(form, head + VERSION) && number_at(form, head + LINK_TYPE) == ETHERNET;
}

static int is_form(const uint64_t *form) { return form[DZ_FORM_UNIT] == 1 || form[DZ_FORM_UNIT] == 1000; }

/* What the head of a packet says. */
static uint64_t fraction_of(const uint64_t *form, const uint8_t *head) { return number_at(form, head + FRACTION) * form[DZ_FORM_UNIT]; }
static uint64_t time_of(const uint64_t *form, const uint8_t *head) { return number_at(form, head) * second + fraction_of(form, head); }
static size_t stored_of(const uint64_t *form, const uint8_t *head) { return number_at(form, head + STORED); }
static int is_packet(const uint64_t *form, const uint8_t *head) { return fraction_of(form, head) < second && number_at(form, head + ORIGINAL) <= stored_of(form, head); }

static int is_ptp(const uint8_t *frame, size_t n) { return n >= DZ_FRAME_HEAD_OCTETS && be16(frame + ETHERTYPE) == PTP; }

dz_answer c_capture_head(const uint8_t *head, uint64_t *form)
{
    uint64_t read[DZ_FORM_WORDS];
    if (!read_head(head, read)) return DZ_REFUSED_PCAP;
    __builtin_memcpy(form, read, sizeof read);
    return DZ_OK;
}

dz_answer c_capture_packet(const uint64_t *form, const uint8_t *head, uint64_t *packet)
{
    if (!is_form(form) || !is_packet(form, head)) return DZ_REFUSED_PCAP;
    packet[DZ_K_TIME] = time_of(form, head);
    packet[DZ_K_STORED] = stored_of(form, head);
    return DZ_OK;
}

dz_answer c_capture_record(uint64_t *recording, uint8_t *open, uint64_t port, uint64_t t, const uint8_t *frame, size_t n, uint8_t *block, uint64_t *closed)
{
    if (is_ptp(frame, n)) return c_trace_record(recording, open, port, t, frame + DZ_FRAME_HEAD_OCTETS, n - DZ_FRAME_HEAD_OCTETS, block, closed);
    *closed = 0;
    return DZ_OK;
}

/* ---- A whole file into a trace: looked at to its end first, then written in place ------------------------------------------------- */

/* Whether a message of n octets has a place in a block whose records end at an octet; a full one stands for none. */
static int fits(size_t end, size_t n) { return end + HEAD + n <= DZ_BLOCK_OCTETS; }

/* What a trace comes to: its blocks, where the records of the last one end, the last time, and the refusal of the first message that is not recorded. */
struct weight {
    uint64_t blocks, last;
    size_t end;
    dz_answer refused;
};

static void weigh(struct weight *w, uint64_t t, size_t n)
{
    if (n > DZ_TRACE_LONGEST) w->refused = DZ_REFUSED_LONG;
    else if (t < w->last) w->refused = DZ_REFUSED_BACKWARD;
    else if (fits(w->end, n)) w->end += HEAD + n;
    else if (w->blocks > last_number) w->refused = DZ_REFUSED_MANY;
    else w->blocks++, w->end = RECORDS + HEAD + n;
    w->last = t;
}

/* Whether octets are packets to their end, and what the trace of their messages comes to. */
static int are_packets(const uint64_t *form, const uint8_t *s, size_t n, struct weight *w)
{
    while (n > 0) {
        if (n < DZ_PACKET_HEAD_OCTETS || !is_packet(form, s)) return 0;
        const uint8_t *frame = s + DZ_PACKET_HEAD_OCTETS;
        size_t stored = stored_of(form, s);
        n -= DZ_PACKET_HEAD_OCTETS;
        if (stored > n) return 0;
        if (w->refused == DZ_OK && is_ptp(frame, stored)) weigh(w, time_of(form, s), stored - DZ_FRAME_HEAD_OCTETS);
        s = frame + stored;
        n -= stored;
    }
    return 1;
}

/* The block that is written, none at first: its number, where the next record goes, and how many it has. */
struct tape {
    uint8_t *block;
    uint32_t number;
    unsigned count;
    size_t end;
};

static void close_block(struct tape *tape)
{
    put16(tape->block + COUNT, (uint16_t)tape->count);
    __builtin_memset(tape->block + tape->end, 0, DZ_BLOCK_OCTETS - tape->end);
    put16(tape->block, check_of(tape->block));
}

static void open_block(struct tape *tape, uint8_t *block, uint32_t number, uint64_t t)
{
    *tape = (struct tape){block, number, 0, RECORDS};
    put32(block + NUMBER, number);
    put64(block + FIRST_TIME, t);
}

static void add(struct tape *tape, uint8_t *out, uint64_t port, uint64_t t, const uint8_t *s, size_t n)
{
    if (tape->block == NULL) {
        open_block(tape, out, 0, t);
    } else if (!fits(tape->end, n)) {
        close_block(tape);
        open_block(tape, tape->block + DZ_BLOCK_OCTETS, tape->number + 1, t);
    }
    put_record(tape->block + tape->end, port, t, s, n);
    tape->end += HEAD + n;
    tape->count++;
}

/* Writes the trace of packets that were looked at. */
static void put_trace(uint8_t *out, uint64_t port, const uint64_t *form, const uint8_t *s, size_t n)
{
    struct tape tape = {0};
    for (const uint8_t *stop = s + n; s < stop;) {
        const uint8_t *frame = s + DZ_PACKET_HEAD_OCTETS;
        size_t stored = stored_of(form, s);
        if (is_ptp(frame, stored)) add(&tape, out, port, time_of(form, s), frame + DZ_FRAME_HEAD_OCTETS, stored - DZ_FRAME_HEAD_OCTETS);
        s = frame + stored;
    }
    if (tape.block != NULL) close_block(&tape);
}

dz_answer c_import(uint8_t *out, size_t room, uint64_t port, const uint8_t *s, size_t n, uint64_t *written)
{
    struct weight w = {.end = DZ_BLOCK_OCTETS};
    uint64_t form[DZ_FORM_WORDS];
    if (n < DZ_CAPTURE_HEAD_OCTETS || !read_head(s, form)) return DZ_REFUSED_PCAP;
    s += DZ_CAPTURE_HEAD_OCTETS;
    n -= DZ_CAPTURE_HEAD_OCTETS;
    if (!are_packets(form, s, n, &w)) return DZ_REFUSED_PCAP;
    if (!is_port(port)) return DZ_REFUSED_PORT;
    if (w.refused != DZ_OK) return w.refused;
    if (w.blocks > room / DZ_BLOCK_OCTETS) return DZ_REFUSED_ROOM;
    put_trace(out, port, form, s, n);
    *written = w.blocks * DZ_BLOCK_OCTETS;
    return DZ_OK;
}

/* ---- Writing ------------------------------------------------------------------------------------------------------------------- */

dz_answer c_capture_begin(uint8_t *head)
{
    __builtin_memset(head, 0, DZ_CAPTURE_HEAD_OCTETS);
    put32(head, nano_magic);
    put32(head + VERSION, version_2_4);
    put32(head + SNAPSHOT, LONGEST_FRAME);
    put32(head + LINK_TYPE, ETHERNET);
    return DZ_OK;
}

/* The octets of the packets of a sound block; 0 where a record is not of the port, or its seconds do not fit. */
static size_t packets_octets(const uint8_t *b, uint64_t port)
{
    unsigned count = be16(b + COUNT);
    size_t at = RECORDS, octets = 0;
    for (unsigned i = 0; i < count; i++) {
        size_t n = be16(b + at + LENGTH);
        if (b[at + ON_PORT] != port || be64(b + at) / second > last_second) return 0;
        octets += BEFORE + n;
        at += HEAD + n;
    }
    return octets;
}

/* Writes the packet of a record; where it ends. */
static uint8_t *put_packet(uint8_t *out, const uint8_t *record, size_t n)
{
    uint64_t t = be64(record);
    put32(out, (uint32_t)(t / second));
    put32(out + FRACTION, (uint32_t)(t % second));
    put32(out + STORED, (uint32_t)(DZ_FRAME_HEAD_OCTETS + n));
    put32(out + ORIGINAL, (uint32_t)(DZ_FRAME_HEAD_OCTETS + n));
    out += DZ_PACKET_HEAD_OCTETS;
    __builtin_memset(out, 0, ETHERTYPE);
    put16(out + ETHERTYPE, PTP);
    __builtin_memcpy(out + DZ_FRAME_HEAD_OCTETS, record + HEAD, n);
    return out + DZ_FRAME_HEAD_OCTETS + n;
}

/* Writes the packets of a block; where they end. */
static uint8_t *put_packets(uint8_t *out, const uint8_t *b)
{
    unsigned count = be16(b + COUNT);
    size_t at = RECORDS;
    for (unsigned i = 0; i < count; i++) {
        size_t n = be16(b + at + LENGTH);
        out = put_packet(out, b + at, n);
        at += HEAD + n;
    }
    return out;
}

/* The port of a sound block's first record. */
static uint64_t first_port(const uint8_t *b) { return b[RECORDS + ON_PORT]; }

/* What an exporter keeps begins with what a reader keeps. */
dz_answer c_capture_block(uint64_t *exporter, const uint8_t *s, size_t n, uint8_t *packets, uint64_t *written)
{
    uint64_t after[DZ_EXPORTER_WORDS];
    if (!is_sound(s, n, exporter, after)) return DZ_REFUSED_BLOCK;
    after[DZ_EXPORTER_PORT] = exporter[DZ_EXPORTER_PORT] ? exporter[DZ_EXPORTER_PORT] : first_port(s);
    if (packets_octets(s, after[DZ_EXPORTER_PORT]) == 0) return DZ_REFUSED_EXPORT;
    *written = (uint64_t)(put_packets(packets, s) - packets);
    __builtin_memcpy(exporter, after, sizeof after);
    return DZ_OK;
}

/* Looks at a whole trace: what refuses it, or how many octets its packets have. */
static dz_answer weigh_trace(const uint8_t *s, size_t n, size_t *octets)
{
    uint64_t reader[DZ_READER_WORDS] = {0};
    dz_answer answer = DZ_OK;
    *octets = 0;
    for (size_t at = 0; at < n; at += DZ_BLOCK_OCTETS) {
        if (!is_sound(s + at, block_octets(n - at), reader, reader)) return DZ_REFUSED_BLOCK;
        size_t here = packets_octets(s + at, first_port(s));
        if (here == 0) answer = DZ_REFUSED_EXPORT;
        *octets += here;
    }
    return answer;
}

dz_answer c_export(uint8_t *out, size_t room, const uint8_t *s, size_t n, uint64_t *written)
{
    size_t octets;
    dz_answer answer = weigh_trace(s, n, &octets);
    if (answer != DZ_OK) return answer;
    if (room < DZ_CAPTURE_HEAD_OCTETS || room - DZ_CAPTURE_HEAD_OCTETS < octets) return DZ_REFUSED_ROOM;
    c_capture_begin(out);
    out += DZ_CAPTURE_HEAD_OCTETS;
    for (size_t at = 0; at < n; at += DZ_BLOCK_OCTETS) out = put_packets(out, s + at);
    *written = DZ_CAPTURE_HEAD_OCTETS + octets;
    return DZ_OK;
}
