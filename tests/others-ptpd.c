/* What ptpd does at the points of the table in docs/ARCHITECTURE.md, a line each. tests/others compiles this with ptpd's own source files, unchanged: what reads, keeps,
   compares and chooses here is theirs. Two are taken in here as they stand: protocol.c, since what handles an Announce is local to it, and ptpd.c without its main. */
#include "protocol.c"
#define main ptpd_main
#include "ptpd.c"
#include "others.h"
#undef main

/* ---- a port that hears Announces ------------------------------------------------------------------------------------------------- */

enum { OCTETS = 64, PRIORITY1_AT = 47, NANOSECONDS_AT = 40, STEPS_AT = 62, GRANDMASTER_AT = 58 };

static RunTimeOpts options;

static PtpClock *new_port(void)
{
    PtpClock *c = calloc(1, sizeof *c);
    options.max_foreign_records = DEFAULT_MAX_FOREIGN_RECORDS;
    c->max_foreign_records = options.max_foreign_records;
    c->foreign = calloc((size_t)c->max_foreign_records, sizeof *c->foreign);
    c->portState = PTP_LISTENING;
    c->slaveOnly = TRUE;
    return c;
}

/* An Announce of 64 octets in the port's buffer; sender and grandmaster are told by the last three octets of their clocks. */
static unsigned char *announce(PtpClock *c, unsigned sender, unsigned grandmaster)
{
    unsigned char *o = (unsigned char *)c->msgIbuf;
    memset(o, 0, 128);
    o[0] = 0x0B, o[1] = 2, o[3] = OCTETS, o[21] = 0x1b;
    o[25] = (unsigned char)(sender >> 16), o[26] = (unsigned char)(sender >> 8), o[27] = (unsigned char)sender, o[29] = 1;
    o[32] = 5, o[PRIORITY1_AT] = 128, o[48] = 6, o[52] = 128, o[54] = 0x1b, o[STEPS_AT] = 1;
    o[GRANDMASTER_AT] = (unsigned char)(grandmaster >> 16), o[59] = (unsigned char)(grandmaster >> 8), o[60] = (unsigned char)grandmaster;
    return o;
}

/* Hands in the Announce of the buffer; whether it was taken into a record. */
static int hear(PtpClock *c, ssize_t length)
{
    c->record_update = FALSE;
    msgUnpackHeader(c->msgIbuf, &c->msgTmpHeader);
    handleAnnounce(&c->msgTmpHeader, length, FALSE, &options, c);
    return c->record_update;
}

static const ForeignMasterRecord *best(PtpClock *c)
{
    bmc(c->foreign, &options, c);
    return &c->foreign[c->foreign_record_best];
}

static unsigned clock_of(const ForeignMasterRecord *r)
{
    const unsigned char *o = (const unsigned char *)r->foreignMasterPortIdentity.clockIdentity;
    return (unsigned)o[5] << 16 | (unsigned)o[6] << 8 | o[7];
}

/* ---- the points ------------------------------------------------------------------------------------------------------------------ */

static void senders_kept(void)
{
    PtpClock *c = new_port();
    int left = 0;
    for (unsigned i = 1; i <= 5; i++) announce(c, i, i), hear(c, OCTETS);
    best(c);
    for (unsigned i = 0; i < 1000; i++) announce(c, 1000 + i, 99), hear(c, OCTETS);
    for (int i = 0; i < c->number_foreign_records; i++) left += clock_of(&c->foreign[i]) <= 5;
    printf("senders a port keeps: %d; of five live ones, %d is left after 1000 new names\n", c->number_foreign_records, left);
}

static void window(void)
{
    PtpClock *c = new_port();
    announce(c, 1, 1);
    hear(c, OCTETS);
    printf("window of a sender: none, a record of %zu octets has no time; one Announce makes it %s\n", sizeof *c->foreign, clock_of(best(c)) == 1 ? "the best" : "no candidate");
}

static void port_numbers(void)
{
    PtpClock *c = new_port();
    unsigned char *o = announce(c, 1, 1);
    hear(c, OCTETS);
    o[28] = 1, o[29] = 0;
    hear(c, OCTETS);
    printf("port numbers of identities: of ports 1 and 256 of one clock, %d is better\n", best(c)->foreignMasterPortIdentity.portNumber);
}

/* The three of which each beats the one before: one grandmaster with priority1 1 and steps 5, with 9 and 1, and another with 5. */
static void circle(void)
{
    static const unsigned char orders[3][3] = {{0, 1, 2}, {1, 2, 0}, {2, 0, 1}}, priority1[] = {1, 9, 5}, steps[] = {5, 1, 1};
    printf("choosing the best of many: the same A, B and C, heard in three orders:");
    for (int i = 0; i < 3; i++) {
        PtpClock *c = new_port();
        for (int k = 0; k < 3; k++) {
            unsigned one = orders[i][k];
            unsigned char *o = announce(c, one + 1, one < 2 ? 10 : 20);
            o[PRIORITY1_AT] = priority1[one], o[STEPS_AT] = steps[one];
            hear(c, OCTETS);
        }
        printf(" %c", (int)('A' + clock_of(best(c)) - 1));
    }
    printf("\n");
}

static void backups(void)
{
    PtpClock *c = new_port();
    for (unsigned i = 3; i > 0; i--) announce(c, i, i), hear(c, OCTETS);
    best(c);
    printf("backups: of three senders, %d are kept when the best has been chosen\n", c->number_foreign_records);
}

/* A set with two steps against one with one; their senders are below our parent's clock, or above it. */
static void a_step_apart(void)
{
    printf("steps that differ by one: of 2 and 1,");
    for (unsigned parent = 0; parent < 256; parent += 255) {
        PtpClock *c = new_port();
        announce(c, 5, 10)[STEPS_AT] = 2;
        hear(c, OCTETS);
        announce(c, 6, 10)[STEPS_AT] = 1;
        hear(c, OCTETS);
        memset(c->parentPortIdentity.clockIdentity, (int)parent, CLOCK_IDENTITY_LENGTH);
        printf(" %d wins where both senders are %s our parent%s", best(c)->announce.stepsRemoved, parent ? "below" : "above", parent ? "\n" : ",");
    }
}

static void message_length(void)
{
    PtpClock *c = new_port();
    announce(c, 1, 1)[3] = 1;
    printf("messageLength of an Announce: 1 in 64 octets is %s, ", hear(c, OCTETS) ? "taken" : "refused");
    announce(c, 1, 1)[2] = 255;
    printf("65,344 in 64 is %s\n", hear(c, OCTETS) ? "taken" : "refused");
}

static void nanoseconds(void)
{
    PtpClock *c = new_port();
    memcpy(announce(c, 1, 1) + NANOSECONDS_AT, "\x3b\x9a\xca\x00", 4);
    printf("nanoseconds of 10^9: %s\n", hear(c, OCTETS) ? "taken" : "refused");
}

static void refused_buffer(void)
{
    PtpClock *c = new_port();
    unsigned char was[OCTETS];
    memcpy(was, announce(c, 1, 1), OCTETS);
    int taken = hear(c, OCTETS - 1), changed = 0;
    for (int i = 0; i < OCTETS; i++) changed += was[i] != (unsigned char)c->msgIbuf[i];
    printf("a refused message's buffer: one of 63 octets is %s, and %d octets are others\n", taken ? "taken" : "refused", changed);
}

int main(void)
{
    points();
    return 0;
}
