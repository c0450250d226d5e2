/* How much stack each call of include/dzervolat.h takes: the stack below is painted, the call is made, and the paint that is left is looked for.
   A call is made once before, so that the loader's own work is done. */
#include "dzervolat.h"

#include <stdio.h>

enum { ROOM = 65536, PAINT = 0xA5, PORT = 7, RUN = DZ_PORTS * DZ_SLOTS };

static const uint16_t magic = DZ_EXAMPLE_MAGIC;
static const uint64_t own_clock = 1, own[DZ_OWN_WORDS] = DZ_OWN_DEFAULT(1), lock[DZ_LINK_MESSAGE_WORDS] = {[DZ_L_NUMBER] = DZ_LINK_LOCK};
static const uint64_t signaling[DZ_MESSAGE_WORDS] = {[DZ_M_TYPE] = DZ_SIGNALING};
static const uint64_t exchange[DZ_EXCHANGE_WORDS] = {[DZ_E_T2_NANOS] = 510, [DZ_E_T3_NANOS] = 1000510, [DZ_E_T4_NANOS] = 1001000, [DZ_E_ASYMMETRY] = 1 << 20};
static uint64_t ports[DZ_PORTS_WORDS], links[DZ_LINKS_WORDS], message[DZ_MESSAGE_WORDS] = {[DZ_M_TYPE] = DZ_ANNOUNCE, [DZ_M_CLOCK] = 9, [DZ_M_GRANDMASTER] = 9};
static uint64_t run[RUN * DZ_CANDIDATE_WORDS], list[DZ_LIST_WORDS], words[DZ_LIST_WORDS], found[DZ_FOUND_WORDS], number, now;
static uint64_t recording[DZ_RECORDING_WORDS], replayed[DZ_PORTS_WORDS], reader[DZ_READER_WORDS];
static uint8_t open[DZ_BLOCK_OCTETS], block[DZ_BLOCK_OCTETS], trace[2 * DZ_BLOCK_OCTETS]; /* two blocks, each with an Announce */
static size_t block_at;
static uint64_t form[DZ_FORM_WORDS], exporter[DZ_EXPORTER_WORDS], captured;
static uint8_t capture[512], head[DZ_CAPTURE_HEAD_OCTETS], packets[DZ_PACKETS_OCTETS], *const packet = capture + DZ_CAPTURE_HEAD_OCTETS; /* the trace's capture, and its first packet */
static uint64_t burst[1][DZ_BURST_WORDS] = {{[DZ_BURST_PORT] = PORT, [DZ_BURST_LENGTH] = 78}};
static uint8_t announce[78], sync[44] = {[1] = 2, [3] = 44}, frame[64], out[128], suffix[DZ_SUFFIX_OCTETS], decisions[DZ_PORTS];

static void call_version(void) { number = dz_version(); }
static void call_read(void) { dz_read(announce, sizeof announce, magic, words, found); }
static void call_lookup(void) { dz_lookup(announce, sizeof announce, 3, magic, found); }
static void call_walk(void) { dz_walk(announce, sizeof announce, 0, magic, found); }
static void call_suffix(void) { dz_suffix(announce, sizeof announce, magic, found); }
static void call_link_message(void) { dz_link_message(frame, 56, magic, found); }
static void call_origin(void) { dz_origin(sync, sizeof sync, sync, sizeof sync, magic, found); }
static void call_write(void) { dz_write(out, sizeof out, message, suffix, sizeof suffix, magic, &number); }
static void call_write_link(void) { dz_write_link(out, sizeof out, signaling, lock, magic, &number); }
static void call_write_suffix(void) { dz_write_suffix(5, magic, suffix); }
static void call_take(void) { announce[31]++, dz_take(ports, PORT, ++now, announce, sizeof announce, 0, own_clock, magic); }
static void call_take_burst(void) { burst[0][DZ_BURST_TIME] = ++now, announce[31]++, dz_take_burst(ports, announce, sizeof announce, burst, 1, 0, own_clock, magic); }
static void call_trace_record(void) { recording[DZ_RECORDING_END] = DZ_BLOCK_OCTETS, dz_trace_record(recording, open, PORT, now, announce, sizeof announce, block, &number); }
static void call_trace_finish(void) { dz_trace_finish(recording, open, block, &number); }
static void call_trace_walk(void) { dz_trace_walk(trace, 0, found); }
static void call_replay_block(void) { dz_replay_block(replayed, reader, trace + block_at, DZ_BLOCK_OCTETS, 0, own_clock, magic), block_at += DZ_BLOCK_OCTETS; }
static void call_replay(void) { dz_replay(replayed, trace, sizeof trace, 0, own_clock, magic, &number); }
static void call_import(void) { dz_import(block, sizeof block, PORT, capture, captured, &number); }
static void call_export(void) { dz_export(capture, sizeof capture, trace, sizeof trace, &captured); }
static void call_capture_head(void) { dz_capture_head(capture, form); }
static void call_capture_packet(void) { dz_capture_packet(form, packet, words); }
static void call_capture_record(void) { recording[DZ_RECORDING_END] = DZ_BLOCK_OCTETS, dz_capture_record(recording, open, PORT, now, packet + DZ_PACKET_HEAD_OCTETS, DZ_FRAME_HEAD_OCTETS + sizeof announce, block, &number); }
static void call_capture_begin(void) { dz_capture_begin(head); }
static void call_capture_block(void) { exporter[DZ_EXPORTER_NEXT] = 0, dz_capture_block(exporter, trace, DZ_BLOCK_OCTETS, packets, &number); }
static void call_candidate(void) { dz_candidate(ports, PORT, 0, now, found); }
static void call_best(void) { dz_best(ports, PORT, now, found); }
static void call_status(void) { dz_status(ports, PORT, words); }
static void call_record(void) { dz_record(ports, PORT, 0, words); }
static void call_set_interval(void) { dz_set_interval(ports, PORT, 1); }
static void call_rank(void) { dz_rank(run, RUN, list); }
static void call_merge(void) { dz_merge(list, list, words); }
static void call_decide(void) { dz_decide(own, list, PORT, found, &number); }
static void call_decide_all(void) { dz_decide_all(ports, now, own, decisions, words); }
static void call_parent(void) { dz_parent(own, list, found); }
static void call_compare(void) { dz_compare(run, run + DZ_CANDIDATE_WORDS, &number); }
static void call_link_set(void) { dz_link_set(links, PORT, DZ_CONFIG_BOTH, 1, 3, 1000, 1, 2); }
static void call_link_start(void) { dz_link_start(links, PORT, DZ_CONFIG_MASTER, 0, words); }
static void call_link_take(void) { dz_link_take(links, PORT, DZ_LINK_LOCK, words); }
static void call_link_done(void) { dz_link_done(links, PORT, words); }
static void call_link_timeout(void) { dz_link_timeout(links, PORT, words); }
static void call_link_stop(void) { dz_link_stop(links, PORT, words); }
static void call_link_status(void) { dz_link_status(links, PORT, words); }
static void call_measure(void) { dz_measure(exchange, words); }

#define CALL(name) {"dz_" #name, call_##name}
static const struct { const char *name; void (*call)(void); } calls[] = {
    CALL(version), CALL(read), CALL(lookup), CALL(walk), CALL(suffix), CALL(link_message), CALL(origin), CALL(write), CALL(write_link), CALL(write_suffix),
    CALL(take), CALL(take_burst), CALL(trace_record), CALL(trace_finish), CALL(trace_walk), CALL(replay_block), CALL(replay),
    CALL(export), CALL(import), CALL(capture_head), CALL(capture_packet), CALL(capture_record), CALL(capture_begin), CALL(capture_block),
    CALL(candidate), CALL(best), CALL(status), CALL(record), CALL(set_interval), CALL(rank), CALL(merge), CALL(decide), CALL(decide_all), CALL(parent),
    CALL(compare), CALL(link_set), CALL(link_start), CALL(link_take), CALL(link_done), CALL(link_timeout), CALL(link_stop), CALL(link_status), CALL(measure),
};

/* The octets below this function's own frame, which ends with what is allocated last, that a call has written to. */
static __attribute__((noinline)) size_t depth(void (*call)(void))
{
    volatile uint8_t *low = __builtin_alloca(16);
    size_t kept = 0;
    __asm__("" : "+r"(low)); /* what lies there is nothing that the compiler has to know */
    low -= ROOM;
    call();
    for (size_t i = 0; i < ROOM; i++) low[i] = PAINT;
    call();
    while (kept < ROOM && low[kept] == PAINT) kept++;
    return ROOM - kept;
}

/* The trace: the Announce twice, the second time under the next number. */
static void put_trace(void)
{
    for (int b = 0; b < 2; b++) {
        announce[31]++;
        recording[DZ_RECORDING_END] = 0;
        dz_trace_record(recording, open, PORT, now, announce, sizeof announce, block, &number);
        dz_trace_finish(recording, open, trace + b * DZ_BLOCK_OCTETS, &number);
    }
}

int main(void)
{
    dz_write_suffix(5, magic, suffix);
    dz_write(announce, sizeof announce, message, suffix, sizeof suffix, magic, &number);
    dz_write_link(frame, sizeof frame, signaling, lock, magic, &number);
    put_trace();
    for (uint64_t i = 0; i < RUN; i++) run[i * DZ_CANDIDATE_WORDS + DZ_C_STEPS] = RUN - i, run[i * DZ_CANDIDATE_WORDS + DZ_C_PORT] = i % DZ_PORTS + 1;
    for (size_t i = 0; i < sizeof calls / sizeof *calls; i++) printf("%s %zu\n", calls[i].name, depth(calls[i].call));
    return 0;
}
