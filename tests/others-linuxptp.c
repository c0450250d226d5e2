/* What linuxptp does at the points of the table in docs/ARCHITECTURE.md, a line each. tests/others compiles this with linuxptp's own source files, unchanged:
   what reads, keeps, compares and chooses here is theirs. Answered here are only the two questions that a port asks of its clock on the way, and the time. */
#include <stdint.h>
#include <stdio.h>
#include <stdlib.h>
#include <string.h>
#include <sys/syscall.h>
#include <time.h>
#include <unistd.h>

#include "bmc.h"
#include "ds.h"
#include "foreign.h"
#include "msg.h"
#include "port.h"
#include "port_private.h"
#include "print.h"
#include "others.h"

/* ---- the clock behind a port, and the time --------------------------------------------------------------------------------------- */

UInteger8 clock_max_steps_removed(struct clock *c)
{
    (void)c;
    return 255;
}

int (*clock_dscmp(struct clock *c))(struct dataset *a, struct dataset *b)
{
    (void)c;
    return dscmp;
}

static struct timespec now = {1000, 0};

/* The linker puts this in the place of clock_gettime (--wrap). */
int __wrap_clock_gettime(clockid_t id, struct timespec *t)
{
    (void)id;
    *t = now;
    return 0;
}

/* The processor's time that this program has taken. */
static double true_microseconds(void)
{
    struct timespec t;
    syscall(SYS_clock_gettime, CLOCK_PROCESS_CPUTIME_ID, &t);
    return (double)t.tv_sec * 1e6 + (double)t.tv_nsec / 1e3;
}

/* ---- Announces, and a port that hears them --------------------------------------------------------------------------------------- */

enum { OCTETS = 64, PRIORITY1 = 47, INTERVAL = 33, NANOSECONDS = 40, STEPS = 62, GRANDMASTER = 58 };

/* An Announce of 64 octets; sender and grandmaster are told by the last three octets of their clocks. */
static void announce(uint8_t *o, unsigned sender, unsigned grandmaster)
{
    memset(o, 0, 128);
    o[0] = 0x0B, o[1] = 2, o[3] = OCTETS, o[21] = 0x1b;
    o[25] = (uint8_t)(sender >> 16), o[26] = (uint8_t)(sender >> 8), o[27] = (uint8_t)sender, o[29] = 1;
    o[32] = 5, o[PRIORITY1] = 128, o[48] = 6, o[52] = 128, o[54] = 0x1b, o[STEPS] = 1;
    o[GRANDMASTER] = (uint8_t)(grandmaster >> 16), o[59] = (uint8_t)(grandmaster >> 8), o[60] = (uint8_t)grandmaster;
}

static struct ptp_message *received(const uint8_t *o, int n, int *refused)
{
    struct ptp_message *m = msg_allocate();
    memcpy(&m->data, o, (size_t)n);
    *refused = msg_post_recv(m, n);
    return m;
}

static const char *reading(const uint8_t *o, int n)
{
    int refused;
    msg_put(received(o, n, &refused));
    return refused ? "refused" : "taken";
}

static struct port *new_port(void)
{
    struct port *p = calloc(1, sizeof *p);
    p->clock = (struct clock *)p; /* is handed on, never looked into */
    p->state = PS_LISTENING;
    p->portIdentity.portNumber = 1;
    p->portIdentity.clockIdentity.id[7] = 77;
    return p;
}

static void hear(struct port *p, const uint8_t *o, int times)
{
    while (times-- > 0) {
        int refused;
        struct ptp_message *m = received(o, OCTETS, &refused);
        if (!refused) process_announce(p, m);
        msg_put(m);
    }
}

static int records(const struct port *p, int with_receipts)
{
    int n = 0;
    const struct foreign_clock *f;
    LIST_FOREACH(f, &p->foreign_masters, list) n += !with_receipts || f->n_messages > 0;
    return n;
}

/* ---- the points ------------------------------------------------------------------------------------------------------------------ */

static void senders_kept(void)
{
    enum { NAMES = 50000 };
    uint8_t o[128];
    struct port *p = new_port();
    double from = true_microseconds();
    for (unsigned i = 0; i < NAMES; i++) announce(o, i, 1), hear(p, o, 1);
    printf("senders a port keeps: after %d new names it has %d records; an Announce took %.0f us on average\n", NAMES, records(p, 0), (true_microseconds() - from) / NAMES);
}

static void window(void)
{
    uint8_t o[128];
    struct port *p = new_port(), *q = new_port();
    announce(o, 1, 1);
    hear(p, o, 3);
    o[INTERVAL] = 127;
    hear(q, o, 3);
    now.tv_sec += 365 * 86400;
    printf("window of a sender: silent for a year, one of interval 0 is %s, one of interval 127 is %s\n", port_compute_best(p) ? "the best" : "expired", port_compute_best(q) ? "the best" : "expired");
}

static void port_numbers(void)
{
    uint8_t o[128];
    struct port *p = new_port();
    announce(o, 1, 1);
    hear(p, o, 3);
    o[28] = 1, o[29] = 0;
    hear(p, o, 3);
    printf("port numbers of identities: of ports 1 and 256 of one clock, %d is better\n", port_compute_best(p)->dataset.sender.portNumber);
}

/* The three of which each beats the one before: one grandmaster with priority1 1 and steps 5, with 9 and 1, and another with 5. */
static void circle(void)
{
    static const uint8_t orders[3][3] = {{0, 1, 2}, {1, 2, 0}, {2, 0, 1}};
    uint8_t o[3][128];
    for (unsigned i = 0; i < 3; i++) announce(o[i], i + 1, i < 2 ? 10 : 20);
    o[0][PRIORITY1] = 1, o[0][STEPS] = 5, o[1][PRIORITY1] = 9, o[2][PRIORITY1] = 5;
    printf("choosing the best of many: the same A, B and C, heard in three orders:");
    for (int i = 0; i < 3; i++) {
        struct port *p = new_port();
        for (int k = 0; k < 3; k++) hear(p, o[orders[i][k]], 3);
        printf(" %c", 'A' + port_compute_best(p)->dataset.sender.clockIdentity.id[7] - 1);
    }
    printf("\n");
}

/* How many of three qualified senders keep their receipts when the best has been chosen; the best is heard first, or last. */
static int kept_of_three(int best_first)
{
    uint8_t o[128];
    struct port *p = new_port();
    for (unsigned i = 1; i <= 3; i++) announce(o, best_first ? i : 4 - i, best_first ? i : 4 - i), hear(p, o, 3);
    port_compute_best(p);
    return records(p, 1);
}

static void backups(void)
{
    printf("backups: of three qualified senders, %d keep their receipts where the best was heard first, %d where it was heard last\n", kept_of_three(1), kept_of_three(0));
}

static void a_step_apart(void)
{
    uint8_t o[128];
    struct port *p = new_port();
    announce(o, 5, 10), o[STEPS] = 2;
    hear(p, o, 3);
    announce(o, 6, 10), o[STEPS] = 1;
    hear(p, o, 3);
    printf("steps that differ by one: of 2 and 1, %d wins\n", port_compute_best(p)->dataset.stepsRemoved);
}

static void message_length(void)
{
    uint8_t o[128];
    announce(o, 1, 1);
    o[3] = 63;
    printf("messageLength of an Announce: 63 in 64 octets is %s, ", reading(o, 64));
    o[3] = 65;
    printf("65 in 64 is %s, ", reading(o, 64));
    o[3] = 64;
    printf("64 in 68, four of padding, is %s\n", reading(o, 68));
}

static void nanoseconds(void)
{
    uint8_t o[128];
    announce(o, 1, 1);
    memcpy(o + NANOSECONDS, "\x3b\x9a\xca\x00", 4);
    printf("nanoseconds of 10^9: %s\n", reading(o, OCTETS));
}

static void refused_buffer(void)
{
    uint8_t o[128];
    int refused, changed = 0;
    announce(o, 1, 1);
    o[3] = 63;
    struct ptp_message *m = received(o, OCTETS, &refused);
    for (int i = 0; i < OCTETS; i++) changed += m->data.buffer[i] != o[i];
    printf("a refused message's buffer: %d of 64 octets are others\n", changed);
}

int main(void)
{
    print_set_verbose(0);
    print_set_syslog(0);
    print_set_level(-1);
    points();
    return 0;
}
