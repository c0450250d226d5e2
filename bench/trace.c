/* Messages recorded in blocks, and blocks and whole traces replayed, by hand in C. */
#include "block.h"
#include "port.h"

static void open_block(uint8_t *open, uint32_t number, uint64_t t)
{
    __builtin_memset(open, 0, DZ_BLOCK_OCTETS);
    put32(open + NUMBER, number);
    put64(open + FIRST_TIME, t);
}

static void close_block(const uint8_t *open, uint8_t *block)
{
    __builtin_memcpy(block, open, DZ_BLOCK_OCTETS);
    put16(block, check_of(open));
}

static void add_record(uint8_t *open, size_t at, uint64_t port, uint64_t t, const uint8_t *s, size_t n)
{
    put16(open + COUNT, (uint16_t)(be16(open + COUNT) + 1));
    put_record(open + at, port, t, s, n);
}

dz_answer c_trace_record(uint64_t *recording, uint8_t *open, uint64_t port, uint64_t t, const uint8_t *s, size_t n, uint8_t *block, uint64_t *closed)
{
    uint64_t end = recording[DZ_RECORDING_END];
    int is_open = end >= RECORDS, fits;
    if (!is_port(port)) return DZ_REFUSED_PORT;
    if (n > DZ_TRACE_LONGEST) return DZ_REFUSED_LONG;
    if (t < recording[DZ_RECORDING_LAST]) return DZ_REFUSED_BACKWARD;
    fits = is_open && end <= DZ_BLOCK_OCTETS - HEAD - n;
    if (!fits) {
        if (recording[DZ_RECORDING_NEXT] >> 32) return DZ_REFUSED_MANY;
        if (is_open) close_block(open, block);
        open_block(open, (uint32_t)recording[DZ_RECORDING_NEXT]++, t);
        end = RECORDS;
    }
    add_record(open, end, port, t, s, n);
    recording[DZ_RECORDING_LAST] = t;
    recording[DZ_RECORDING_END] = end + HEAD + n;
    *closed = !fits && is_open;
    return DZ_OK;
}

static void take_records(uint64_t *ports, const uint8_t *b, uint8_t domain, uint64_t clock, uint16_t magic)
{
    unsigned count = be16(b + COUNT);
    size_t at = RECORDS;
    for (unsigned i = 0; i < count; i++) {
        size_t n = be16(b + at + LENGTH);
        c_take(ports, b[at + ON_PORT], be64(b + at), b + at + HEAD, n, domain, clock, magic);
        at += HEAD + n;
    }
}

dz_answer c_replay_block(uint64_t *ports, uint64_t *reader, const uint8_t *s, size_t n, uint8_t domain, uint64_t clock, uint16_t magic)
{
    uint64_t after[DZ_READER_WORDS];
    if (!is_sound(s, n, reader, after)) return DZ_REFUSED_BLOCK;
    take_records(ports, s, domain, clock, magic);
    reader[DZ_READER_NEXT] = after[DZ_READER_NEXT];
    reader[DZ_READER_LAST] = after[DZ_READER_LAST];
    return DZ_OK;
}

/* Forgets all records and times; the intervals stay. */
static void forget(uint64_t *ports)
{
    struct port *first = (struct port *)ports;
    for (struct port *p = first; p < first + DZ_PORTS; p++) {
        p->last = 0;
        __builtin_memset(p->slots, 0, sizeof p->slots);
    }
}

dz_answer c_replay(uint64_t *ports, const uint8_t *s, size_t n, uint8_t domain, uint64_t clock, uint16_t magic, uint64_t *last)
{
    uint64_t reader[DZ_READER_WORDS] = {0};
    for (size_t at = 0; at < n; at += DZ_BLOCK_OCTETS)
        if (!is_sound(s + at, block_octets(n - at), reader, reader)) return DZ_REFUSED_BLOCK;
    forget(ports);
    for (size_t at = 0; at < n; at += DZ_BLOCK_OCTETS) take_records(ports, s + at, domain, clock, magic);
    *last = reader[DZ_READER_LAST];
    return DZ_OK;
}
