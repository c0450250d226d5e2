/* A host in C drives a small clock through include/dzervolat.h. `examples/host` builds it with the library, runs it and compares
   what it prints with examples/host.txt. */
#include "dzervolat.h"

#include <inttypes.h>
#include <stdio.h>
#include <string.h>

static uint64_t ports[DZ_PORTS_WORDS]; /* zeroed: a fresh clock */
static uint64_t links[DZ_LINKS_WORDS]; /* zeroed: eighteen links in IDLE */

static uint64_t recording[DZ_RECORDING_WORDS]; /* zeroed: a fresh recording .. */
static uint8_t open[DZ_BLOCK_OCTETS];          /* .. with its open block .. */
static uint8_t trace[8 * DZ_BLOCK_OCTETS];     /* .. and the blocks that came out of it */
static size_t traced;

static const uint64_t our_clock = 0x00B0AEFFFE000001;
static const uint64_t master_a = 0x00B0AEFFFE0000AA;
static const uint64_t master_b = 0x00B0AEFFFE0000BB;
static const uint64_t second = 1000000000;
static const uint8_t domain = 0;
static const uint16_t magic = DZ_EXAMPLE_MAGIC;

/* An Announce of a grandmaster at class 6, a calibrated White Rabbit master, written into octets. */
static size_t announce(uint8_t out[128], uint64_t sender, uint16_t sequence, uint8_t priority1)
{
    const uint64_t message[DZ_MESSAGE_WORDS] = {
        [DZ_M_TYPE] = DZ_ANNOUNCE,
        [DZ_M_CLOCK] = sender,
        [DZ_M_PORT] = 1,
        [DZ_M_SEQUENCE] = sequence,
        [DZ_M_INTERVAL] = (uint64_t)(int64_t)-1,
        [DZ_M_SECONDS] = 1700000000,
        [DZ_M_UTC] = 37,
        [DZ_M_PRIORITY1] = priority1,
        [DZ_M_CLASS] = 6,
        [DZ_M_ACCURACY] = 0x21,
        [DZ_M_VARIANCE] = 0x4E5D,
        [DZ_M_PRIORITY2] = 128,
        [DZ_M_GRANDMASTER] = sender,
        [DZ_M_SOURCE] = 0x20,
    };
    uint8_t suffix[DZ_SUFFIX_OCTETS];
    uint64_t written;
    dz_write_suffix(DZ_CONFIG_MASTER | DZ_WRFLAGS_CALIBRATED, magic, suffix);
    return dz_write(out, 128, message, suffix, sizeof suffix, magic, &written) == DZ_OK ? (size_t)written : 0;
}

/* Records a message; a block that is full goes behind those of the trace. */
static void record(uint64_t port, uint64_t time, const uint8_t *octets, size_t length)
{
    uint64_t closed;
    if (dz_trace_record(recording, open, port, time, octets, length, trace + traced, &closed) == DZ_OK && closed) traced += DZ_BLOCK_OCTETS;
}

/* An Announce arrives and is recorded: what taking it answers, as text. */
static const char *arrives(uint64_t port, uint64_t time, uint64_t sender, uint16_t sequence, uint8_t priority1)
{
    uint8_t octets[128];
    size_t length = announce(octets, sender, sequence, priority1);
    record(port, time, octets, length);
    return dz_refusal_text(dz_take(ports, port, time, octets, length, domain, our_clock, magic));
}

static void show(const char *what, const uint64_t candidate[DZ_CANDIDATE_WORDS])
{
    printf("%s: priority1 %" PRIu64 ", grandmaster %016" PRIx64 ", port %" PRIu64 ", wrFlags %" PRIu64 "\n", what, candidate[DZ_C_PRIORITY1],
        candidate[DZ_C_GRANDMASTER], candidate[DZ_C_PORT], candidate[DZ_C_WRFLAGS]);
}

/* Port 3 has an interval of two seconds; 2^5 is too long, and port 19 is none. Two Announces of one sender make it a candidate; the
   same again is stale, an earlier time goes backward. */
static void senders(void)
{
    uint64_t found[DZ_FOUND_WORDS], status[DZ_STATUS_WORDS], record[DZ_RECORD_WORDS];
    printf("interval of port 3: %s", dz_refusal_text(dz_set_interval(ports, 3, 1)));
    printf(", of 2^5 s: %s", dz_refusal_text(dz_set_interval(ports, 3, 5)));
    printf(", of port 19: %s\n", dz_refusal_text(dz_set_interval(ports, 19, 1)));

    printf("first Announce: %s", arrives(3, 1 * second, master_a, 1, 128));
    dz_best(ports, 3, 1 * second, found);
    printf(", a candidate: %s\n", found[DZ_FOUND] ? "yes" : "not yet");
    printf("second: %s", arrives(3, 3 * second, master_a, 2, 128));
    printf(", again: %s", arrives(3, 3 * second, master_a, 2, 128));
    printf(", earlier: %s\n", arrives(3, 2 * second, master_a, 3, 128));

    dz_status(ports, 3, status);
    printf("port 3: last time %" PRIu64 " s, interval 2^%" PRId64 " s\n", status[DZ_STATUS_LAST] / second, (int64_t)status[DZ_STATUS_INTERVAL]);
    dz_record(ports, 3, 0, record);
    printf("slot 0: sender %016" PRIx64 ", sequenceId %" PRIu64 ", receipts %" PRIu64 "\n", record[DZ_R_SENDER_CLOCK], record[DZ_R_SEQUENCE], record[DZ_R_RECEIPTS]);
    for (size_t slot = 0; slot < DZ_SLOTS; slot++)
        if (dz_candidate(ports, 3, slot, 4 * second, found) == DZ_OK && found[DZ_FOUND]) show("candidate", found + DZ_FOUND_CANDIDATE);
}

/* A candidate as a data set that we received on its port. */
static void received(uint64_t set[DZ_SET_WORDS], const uint64_t candidate[DZ_CANDIDATE_WORDS])
{
    memcpy(set, candidate, DZ_S_RECEIVER_CLOCK * sizeof *set);
    set[DZ_S_RECEIVER_CLOCK] = our_clock;
    set[DZ_S_RECEIVER_PORT] = candidate[DZ_C_PORT];
}

/* A better master on port 7. Each of two cards ranks what its own ports hear, and the lists are merged; then three ports are decided, by our own
   quality, that list and each port's best. */
static void two_cards(void)
{
    const uint64_t own[DZ_OWN_WORDS] = DZ_OWN_DEFAULT(our_clock);
    const uint64_t none[DZ_FOUND_WORDS] = {0};
    uint64_t best3[DZ_FOUND_WORDS], best7[DZ_FOUND_WORDS], here[DZ_LIST_WORDS], there[DZ_LIST_WORDS], list[DZ_LIST_WORDS];
    uint64_t a[DZ_SET_WORDS], b[DZ_SET_WORDS], comparison, decision;
    for (uint16_t sequence = 1; sequence <= 3; sequence++) arrives(7, 4 * second, master_b, sequence, 100);
    dz_best(ports, 3, 4 * second, best3);
    dz_best(ports, 7, 4 * second, best7);
    received(a, best3 + DZ_FOUND_CANDIDATE);
    received(b, best7 + DZ_FOUND_CANDIDATE);
    dz_compare(a, b, &comparison);
    printf("port 3's best against port 7's: %s\n", dz_comparison_text(comparison));

    printf("rank: %s", dz_refusal_text(dz_rank(best3 + DZ_FOUND_CANDIDATE, 1, here)));
    printf(" %s", dz_refusal_text(dz_rank(best7 + DZ_FOUND_CANDIDATE, 1, there)));
    printf(", merge: %s\n", dz_refusal_text(dz_merge(here, there, list)));
    for (uint64_t i = 0; i < list[DZ_LIST_COUNT]; i++) show("ranked", list + DZ_LIST_AT(i));

    dz_decide(own, list, 7, best7, &decision);
    printf("port 7: %s", dz_decision_text(decision));
    dz_decide(own, list, 3, best3, &decision);
    printf(", port 3: %s", dz_decision_text(decision));
    dz_decide(own, list, 5, none, &decision);
    printf(", port 5: %s\n", dz_decision_text(decision));
}

/* All eighteen ports of a clock in one call, and whom it follows. */
static void every_port(const uint64_t clock[DZ_PORTS_WORDS], uint64_t time)
{
    const uint64_t own[DZ_OWN_WORDS] = DZ_OWN_DEFAULT(our_clock);
    uint8_t decisions[DZ_PORTS];
    uint64_t list[DZ_LIST_WORDS], parent[DZ_FOUND_WORDS];
    printf("all ports: %s,", dz_refusal_text(dz_decide_all(clock, time, own, decisions, list)));
    for (int p = 1; p <= DZ_PORTS; p++) printf(" %s", dz_decision_text(decisions[p - 1]));
    printf("\n");
    dz_parent(own, list, parent);
    if (parent[DZ_FOUND]) show("parent", parent + DZ_FOUND_CANDIDATE);
}

/* What was recorded is looked into, and replayed on a clock with the same settings: it decides the same. A damaged block is refused. */
static void replaying(void)
{
    static uint64_t again[DZ_PORTS_WORDS];
    uint64_t closed, entry[DZ_FOUND_ENTRY_WORDS], last = 0;
    if (dz_trace_finish(recording, open, trace + traced, &closed) == DZ_OK && closed) traced += DZ_BLOCK_OCTETS;
    printf("trace of %zu octets", traced);
    for (size_t b = 0; b < traced; b += DZ_BLOCK_OCTETS)
        for (uint64_t at = 0; dz_trace_walk(trace + b, at, entry) == DZ_OK && entry[DZ_FOUND]; at = entry[DZ_N_END])
            printf(", port %" PRIu64 " at %" PRIu64 " s", entry[DZ_N_PORT], entry[DZ_N_TIME] / second);
    dz_set_interval(again, 3, 1);
    printf("\nreplayed: %s", dz_refusal_text(dz_replay(again, trace, traced, domain, our_clock, magic, &last)));
    printf(", as it was live: %s\n", memcmp(again, ports, sizeof ports) == 0 ? "yes" : "no");
    every_port(again, last);
    trace[100] ^= 1;
    printf("damaged: %s\n", dz_refusal_text(dz_replay(again, trace, traced, domain, our_clock, magic, &last)));
}

/* What was written is read back; cut in half, or of PTP version 1, it is refused. */
static void reading(void)
{
    uint8_t octets[128];
    uint64_t message[DZ_MESSAGE_WORDS], tail[DZ_TAIL_WORDS], found[DZ_FOUND_WRFLAGS_WORDS];
    size_t length = announce(octets, master_a, 3, 128);
    printf("read: %s", dz_refusal_text(dz_read(octets, length, magic, message, tail)));
    printf(", sequenceId %" PRIu64 ", interval %" PRId64 ", tail of %" PRIu64 " at %" PRIu64 "\n", message[DZ_M_SEQUENCE], (int64_t)message[DZ_M_INTERVAL],
        tail[DZ_TAIL_LENGTH], tail[DZ_TAIL_AT]);
    dz_suffix(octets, length, magic, found);
    printf("suffix: config %" PRIu64 ", calibrated: %s, mode on: %s\n", found[DZ_FOUND_WRFLAGS] & DZ_WRFLAGS_CONFIG,
        found[DZ_FOUND_WRFLAGS] & DZ_WRFLAGS_CALIBRATED ? "yes" : "no", found[DZ_FOUND_WRFLAGS] & DZ_WRFLAGS_MODE_ON ? "yes" : "no");
    printf("half of it: %s", dz_refusal_text(dz_read(octets, length / 2, magic, message, tail)));
    octets[1] = 1;
    printf(", of version 1: %s\n", dz_refusal_text(dz_read(octets, length, magic, message, tail)));
}

static void show_link(const char *what, const uint64_t step[DZ_STEP_WORDS])
{
    printf("%s: %s as %s, retries %" PRIu64, what, dz_state_text(step[DZ_T_STATE]), step[DZ_T_ROLE] == DZ_ROLE_SLAVE ? "slave" : "master", step[DZ_T_RETRIES]);
    if (step[DZ_T_SENDS]) printf(", sends %s", dz_link_number_text(step[DZ_T_FIRST + DZ_L_NUMBER]));
    printf("\n");
}

/* Port 7 is a White Rabbit slave: a start sends SLAVE_PRESENT, in a Signaling. */
static void linking(void)
{
    const uint64_t signaling[DZ_MESSAGE_WORDS] = {
        [DZ_M_TYPE] = DZ_SIGNALING,
        [DZ_M_CLOCK] = our_clock,
        [DZ_M_PORT] = 7,
        [DZ_M_SEQUENCE] = 1,
        [DZ_M_INTERVAL] = 0x7F,
        [DZ_M_TARGET_CLOCK] = master_b,
        [DZ_M_TARGET_PORT] = 1,
    };
    uint8_t octets[128];
    uint64_t step[DZ_STEP_WORDS], written = 0;
    dz_link_set(links, 7, DZ_CONFIG_SLAVE, 1, 3, 1000, 230000, 240000);
    dz_link_start(links, 7, DZ_CONFIG_MASTER, 0, step);
    show_link("start", step);
    printf("Signaling: %s", dz_refusal_text(dz_write_link(octets, sizeof octets, signaling, step + DZ_T_FIRST, magic, &written)));
    printf(", %" PRIu64 " octets\n", written);
    dz_link_timeout(links, 7, step);
    show_link("on a timeout", step);
    dz_link_take(links, 7, DZ_LINK_LOCK, step);
    show_link("on LOCK", step);
    dz_link_status(links, 7, step);
    show_link("link of port 7", step);
}

/* An exchange: 500 ns there, 500 ns back, and our clock 10 ns ahead. */
static void measuring(void)
{
    const uint64_t exchange[DZ_EXCHANGE_WORDS] = {
        [DZ_E_T1_SECONDS] = 1700000000, [DZ_E_T1_NANOS] = 0,
        [DZ_E_T2_SECONDS] = 1700000000, [DZ_E_T2_NANOS] = 510,
        [DZ_E_T3_SECONDS] = 1700000000, [DZ_E_T3_NANOS] = 1000510,
        [DZ_E_T4_SECONDS] = 1700000000, [DZ_E_T4_NANOS] = 1001000,
    };
    uint64_t measured[DZ_MEASURED_WORDS];
    printf("measure: %s", dz_refusal_text(dz_measure(exchange, measured)));
    printf(", delay %" PRId64 " ns, offset %" PRId64 " s and %" PRIu64 " ns\n", (int64_t)measured[DZ_D_DELAY] / 65536, (int64_t)measured[DZ_D_SECONDS],
        measured[DZ_D_REST] / 65536);
}

int main(void)
{
    if (dz_version() != DZ_VERSION) {
        printf("the library has version %" PRIu64 ", the header %d\n", dz_version(), DZ_VERSION);
        return 1;
    }
    senders();
    two_cards();
    every_port(ports, 4 * second);
    replaying();
    reading();
    linking();
    measuring();
    return 0;
}
