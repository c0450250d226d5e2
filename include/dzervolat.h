/* Dzervolat: the engine of an 18-port White Rabbit / PTP boundary clock, as a host written in C calls it.

   The ten lines that a host needs (the message, its port and time, our own clock, domain and magic are the host's; so are steer and follow):

       static uint64_t ports[DZ_PORTS_WORDS];                            // zeroed: a fresh clock, eighteen ports that heard nothing
       const uint64_t own[DZ_OWN_WORDS] = DZ_OWN_DEFAULT(clock);         // what we are worth without a better source
       uint64_t list[DZ_LIST_WORDS], parent[DZ_FOUND_WORDS];
       uint8_t decisions[DZ_PORTS];
       dz_take(ports, port, now, octets, length, domain, clock, magic);  // each Announce, as it arrives on a port
       if (dz_decide_all(ports, now, own, decisions, list) == DZ_OK) {   // now and then: what every port is to do
           dz_parent(own, list, parent);                                 // whom the clock follows; the rest of the list are backups
           for (int p = 1; p <= DZ_PORTS; p++) steer(p, decisions[p - 1]);
           if (parent[DZ_FOUND]) follow(parent[DZ_FOUND_CANDIDATE + DZ_C_PORT]);
       }

   Every call returns a dz_answer: DZ_OK, or the number of its refusal (enum dz_refusal); then nothing that was lent to it has changed. 6 and 7 say
   where in the message the fault stands, above their number: dz_number(answer), dz_place(answer).
   No call keeps a pointer, allocates, waits or reads a clock: the state is in words that the host lends, and the answers follow from what is
   lent alone. The state is plain memory: zeroed it is fresh, a copy of it is a snapshot, and any words at all have an answer.

   What is lent
   - A pointer points to as many words or octets as its array says, or as the size_t beside it says. It is never NULL, not even where there are 0
     octets, and words lie at their natural alignment: the compiler of the library was told both, and may have made use of it. For no octets,
     lend the address of anything.
   - What a call may change (no const) overlaps nothing else that is lent to the same call, for the same reason: dz_merge into one of its own two
     lists needs a copy of it. What it does not change may overlap as it likes: dz_merge(a, a, out) is fine.
   - No number is cut. A word that its field cannot hold (the comments give the widths) is refused: a port that is none of 1 to 18 with
     DZ_REFUSED_PORT, a number of an exchange with DZ_REFUSED_RANGE, any other with DZ_REFUSED_FIELD, after the refusals that the call itself
     names. Whether a list is a ranked one is judged by what its fields would hold, and by its ports as they are (DZ_REFUSED_UNRANKED).
     Arguments other than ports have the C type of their field, and what C's own conversion makes of a wider number is all that arrives
     (-Wconversion tells).
   - Signed numbers in words are their two's complement: (uint64_t)(int64_t)x, and back by (int64_t)w.

   At the same time: calls to which the same state is lent as const may run together. A call that may change it runs alone on that state. Calls on
   different state do not know of each other.

   To link: libdzervolat.a, and the C library's memcpy and memset, which a freestanding host provides. It has no variables and needs no
   initialisation; C++ may include this header. */
#ifndef DZERVOLAT_H
#define DZERVOLAT_H

#include <stddef.h>
#include <stdint.h>

#ifdef __cplusplus
extern "C" {
#endif

/* Rises whenever a call, a constant, a place in words or the meaning of one changes; within one number all of it stays. A host compiled with one
   number must not run with a library of another: dz_version() == DZ_VERSION is worth a test at start. State that was kept from a library of another
   number is no longer state. */
#define DZ_VERSION 6

/* What every call returns: 0, or the number of its refusal in the low eight bits and, of DZ_REFUSED_TLV and DZ_REFUSED_WRBAD, a place above them. It is
   64 bits wide on every processor. */
typedef uint64_t dz_answer;

/* The number of an answer (enum dz_refusal). */
static inline uint64_t dz_number(dz_answer answer)
{
    return answer & 0xFF;
}

/* Where in the message, counted from its octet 0, the TLV begins that is refused, or the one to three octets that are none; 0 where an answer has
   no place. dz_origin has two messages: the place is one in whichever of them is refused. */
static inline uint64_t dz_place(dz_answer answer)
{
    return answer >> 8;
}

/* The number of the library that is linked. It refuses nothing and its answer is no refusal. */
uint64_t dz_version(void);

/* The numbers that refuse. An answer is compared as it is, dz_take(..) == DZ_REFUSED_STALE, for every number but 6 and 7: these stand below a place, and
   dz_number(answer) == DZ_REFUSED_TLV finds them. */
enum dz_refusal {
    DZ_OK = 0,
    DZ_REFUSED_SHORT = 1,     /* fewer than 34 octets lent, or messageLength exceeds those lent */
    DZ_REFUSED_VERSION = 2,   /* versionPTP is not 2 */
    DZ_REFUSED_TYPE = 3,      /* a message of another type, or a Follow_Up that is not its Sync's */
    DZ_REFUSED_LENGTH = 4,    /* messageLength below the type's fixed size */
    DZ_REFUSED_STAMP = 5,     /* a timestamp's nanoseconds are 1,000,000,000 or more */
    DZ_REFUSED_TLV = 6,       /* the tail is not whole TLVs of even length: dz_place() is where it breaks off */
    DZ_REFUSED_WRBAD = 7,     /* a known White Rabbit message with a wrong data size: dz_place() is where the first stands */
    DZ_REFUSED_PORT = 8,      /* port outside 1 to 18 */
    DZ_REFUSED_DOMAIN = 9,    /* domainNumber is not the set one */
    DZ_REFUSED_OWN = 10,      /* the sender's clockIdentity is our own */
    DZ_REFUSED_BACKWARD = 11, /* time below this port's last accepted time, in recording below the last recorded one */
    DZ_REFUSED_STALE = 12,    /* a live sender, and its sequenceId is not newer */
    DZ_REFUSED_FULL = 13,     /* a new sender, and 16 live records on the port */
    DZ_REFUSED_RANGE = 14,    /* a number outside a limit of delay and offset */
    DZ_REFUSED_UNRANKED = 15, /* a list to merge or decide by is not a ranked list */
    DZ_REFUSED_ROOM = 16,     /* output buffer smaller than the message, the trace or the capture */
    DZ_REFUSED_MANY = 17,     /* more than 288 candidates, or messages of a burst; more blocks than there are numbers */
    DZ_REFUSED_FIELD = 18,    /* a value does not fit its field, would be refused when read, or a setting is out of range */
    DZ_REFUSED_LONG = 19,     /* a message to record has more than 485 octets */
    DZ_REFUSED_BLOCK = 20,    /* a block of a trace: its check, layout, number or times are wrong */
    DZ_REFUSED_PCAP = 21,     /* no capture: a wrong head, link type or fraction, a frame stored short or running past the file */
    DZ_REFUSED_EXPORT = 22    /* a trace that no capture can hold: it mixes ports, or a time's seconds exceed 32 bits */
};

#define DZ_PORTS 18 /* numbered from 1 */
#define DZ_SLOTS 16 /* senders a port, numbered from 0 */
#define DZ_CANDIDATES (DZ_PORTS * DZ_SLOTS) /* the most that are ranked: 288 */

/* The number of an answer as text, for a log. */
static inline const char *dz_refusal_text(dz_answer answer)
{
    switch (dz_number(answer)) {
    case DZ_OK: return "OK";
    case DZ_REFUSED_SHORT: return "SHORT";
    case DZ_REFUSED_VERSION: return "VERSION";
    case DZ_REFUSED_TYPE: return "TYPE";
    case DZ_REFUSED_LENGTH: return "LENGTH";
    case DZ_REFUSED_STAMP: return "STAMP";
    case DZ_REFUSED_TLV: return "TLV";
    case DZ_REFUSED_WRBAD: return "WRBAD";
    case DZ_REFUSED_PORT: return "PORT";
    case DZ_REFUSED_DOMAIN: return "DOMAIN";
    case DZ_REFUSED_OWN: return "OWN";
    case DZ_REFUSED_BACKWARD: return "BACKWARD";
    case DZ_REFUSED_STALE: return "STALE";
    case DZ_REFUSED_FULL: return "FULL";
    case DZ_REFUSED_RANGE: return "RANGE";
    case DZ_REFUSED_UNRANKED: return "UNRANKED";
    case DZ_REFUSED_ROOM: return "ROOM";
    case DZ_REFUSED_MANY: return "MANY";
    case DZ_REFUSED_FIELD: return "FIELD";
    case DZ_REFUSED_LONG: return "LONG";
    case DZ_REFUSED_BLOCK: return "BLOCK";
    case DZ_REFUSED_PCAP: return "PCAP";
    case DZ_REFUSED_EXPORT: return "EXPORT";
    default: return "?";
    }
}

/* 001's example magic of White Rabbit's TLVs; the magic is a setting, and calls that look into tails are told it. */
#define DZ_EXAMPLE_MAGIC 0xABCD

/* The four bits of wrFlags: config (enum dz_config) in the lowest two, then two flags. The rest are reserved: ignored when read, written as zero. */
enum dz_wrflags { DZ_WRFLAGS_CONFIG = 0x3, DZ_WRFLAGS_CALIBRATED = 0x4, DZ_WRFLAGS_MODE_ON = 0x8 };

/* What a port can be on a White Rabbit link. */
enum dz_config { DZ_CONFIG_NONE = 0, DZ_CONFIG_MASTER = 1, DZ_CONFIG_SLAVE = 2, DZ_CONFIG_BOTH = 3 };

/* ---- Messages in words --------------------------------------------------------------------------------------------------------- */

/* A message is twenty words: the header, then the body by type. Words that a type has no field for are 0
   when a call gives them, and not looked at when a call is given them. */
enum dz_message {
    DZ_M_TYPE = 0,       /* enum dz_type */
    DZ_M_TRANSPORT = 1,  /* transportSpecific, 0 to 15 */
    DZ_M_DOMAIN = 2,     /* 8 bits */
    DZ_M_FLAGS = 3,      /* 16 bits, octet 6 in the upper eight: two-step is DZ_FLAG_TWO_STEP */
    DZ_M_CORRECTION = 4, /* signed, nanoseconds times 2^16 */
    DZ_M_CLOCK = 5,      /* sourcePortIdentity: clockIdentity .. */
    DZ_M_PORT = 6,       /* .. and port, 16 bits */
    DZ_M_SEQUENCE = 7,   /* 16 bits */
    DZ_M_INTERVAL = 8,   /* logMessageInterval, signed, 8 bits */
    /* Sync, Delay_Req, Follow_Up, Delay_Resp, Announce: a timestamp */
    DZ_M_SECONDS = 9,    /* 48 bits */
    DZ_M_NANOS = 10,     /* below 1,000,000,000 */
    /* Delay_Resp: requestingPortIdentity */
    DZ_M_REQUESTER_CLOCK = 11,
    DZ_M_REQUESTER_PORT = 12,
    /* Announce */
    DZ_M_UTC = 11,       /* currentUtcOffset, signed, 16 bits */
    DZ_M_PRIORITY1 = 12, /* 8 bits */
    DZ_M_CLASS = 13,     /* 8 bits */
    DZ_M_ACCURACY = 14,  /* 8 bits */
    DZ_M_VARIANCE = 15,  /* 16 bits */
    DZ_M_PRIORITY2 = 16, /* 8 bits */
    DZ_M_GRANDMASTER = 17,
    DZ_M_STEPS = 18,     /* stepsRemoved, 16 bits */
    DZ_M_SOURCE = 19,    /* timeSource, 8 bits */
    /* Signaling: targetPortIdentity */
    DZ_M_TARGET_CLOCK = 9,
    DZ_M_TARGET_PORT = 10,
    DZ_MESSAGE_WORDS = 20
};

enum dz_type { DZ_SYNC = 0x0, DZ_DELAY_REQ = 0x1, DZ_FOLLOW_UP = 0x8, DZ_DELAY_RESP = 0x9, DZ_ANNOUNCE = 0xB, DZ_SIGNALING = 0xC };

/* The two-step bit of a Sync's flags. */
#define DZ_FLAG_TWO_STEP 0x0200

/* Where a message's tail, its TLVs, begins in the octets, and how many octets it has. */
enum dz_tail { DZ_TAIL_AT = 0, DZ_TAIL_LENGTH = 1, DZ_TAIL_WORDS = 2 };

/* What looking for something answers: the first word is 1 and the thing follows; all words are 0 where there is none. */
enum dz_found { DZ_FOUND = 0, DZ_FOUND_CANDIDATE = 1, DZ_FOUND_LINK_MESSAGE = 1, DZ_FOUND_WRFLAGS = 1, DZ_FOUND_DATA_AT = 1, DZ_FOUND_DATA_LENGTH = 2 };
enum dz_found_words { DZ_FOUND_DATA_WORDS = 3, DZ_FOUND_TLV_WORDS = 6, DZ_FOUND_WRFLAGS_WORDS = 2, DZ_FOUND_LINK_WORDS = 7, DZ_FOUND_WORDS = 12 };

/* A TLV, behind the word DZ_FOUND: places are counted from octet 0 of the message. */
enum dz_tlv {
    DZ_TLV_AT = 1,      /* where it stands */
    DZ_TLV_TYPE = 2,    /* 16 bits */
    DZ_TLV_LENGTH = 3,  /* how many octets of data it has */
    DZ_TLV_DATA_AT = 4, /* where they begin: DZ_TLV_AT + 4 */
    DZ_TLV_END = 5      /* where they end, and the next TLV stands: DZ_TLV_DATA_AT + DZ_TLV_LENGTH */
};

/* A timestamp. */
enum dz_stamp { DZ_STAMP_SECONDS = 0, DZ_STAMP_NANOS = 1, DZ_STAMP_WORDS = 2 };

/* A link message of White Rabbit is six words; those it does not carry are 0 when a call gives them, and not looked at when a call is given them. */
enum dz_link_message {
    DZ_L_NUMBER = 0,  /* enum dz_link_number */
    DZ_L_PATTERN = 1, /* CALIBRATE: 8 bits */
    DZ_L_RETRY = 2,   /* CALIBRATE: 8 bits */
    DZ_L_PERIOD = 3,  /* CALIBRATE: 32 bits */
    DZ_L_TX = 4,      /* CALIBRATED: deltaTx */
    DZ_L_RX = 5,      /* CALIBRATED: deltaRx */
    DZ_LINK_MESSAGE_WORDS = 6
};

enum dz_link_number {
    DZ_LINK_SLAVE_PRESENT = 0x1000,
    DZ_LINK_LOCK = 0x1001,
    DZ_LINK_LOCKED = 0x1002,
    DZ_LINK_CALIBRATE = 0x1003,
    DZ_LINK_CALIBRATED = 0x1004,
    DZ_LINK_WR_MODE_ON = 0x1005
};

static inline const char *dz_link_number_text(uint64_t number)
{
    switch (number) {
    case DZ_LINK_SLAVE_PRESENT: return "SLAVE_PRESENT";
    case DZ_LINK_LOCK: return "LOCK";
    case DZ_LINK_LOCKED: return "LOCKED";
    case DZ_LINK_CALIBRATE: return "CALIBRATE";
    case DZ_LINK_CALIBRATED: return "CALIBRATED";
    case DZ_LINK_WR_MODE_ON: return "WR_MODE_ON";
    default: return "?";
    }
}

/* ---- Reading ------------------------------------------------------------------------------------------------------------------- */

/* Reads a message. Octets past its messageLength are padding. Refuses, in this order: 1 (under 34 octets), 2, 3, 4, 1 (messageLength), 5, 6, 7. */
dz_answer dz_read(const uint8_t *octets, size_t length, uint16_t magic, uint64_t message[DZ_MESSAGE_WORDS], uint64_t tail[DZ_TAIL_WORDS]);

/* The first TLV of a type: where its data begin in `octets` (DZ_FOUND_DATA_AT), and how many octets they are. Refuses as dz_read. */
dz_answer dz_lookup(const uint8_t *octets, size_t length, uint16_t type, uint16_t magic, uint64_t found[DZ_FOUND_DATA_WORDS]);

/* The TLV at octet `from`, the first at 0. A loop goes through all of a message's TLVs, in order:

       uint64_t tlv[DZ_FOUND_TLV_WORDS];
       for (uint64_t at = 0; dz_walk(octets, length, at, magic, tlv) == DZ_OK && tlv[DZ_FOUND]; at = tlv[DZ_TLV_END])
           show(tlv[DZ_TLV_AT], tlv[DZ_TLV_TYPE], octets + tlv[DZ_TLV_DATA_AT], tlv[DZ_TLV_LENGTH]);

   At 0 it refuses as dz_read. From another octet on it looks at what stands there alone, so that a tail of any length is gone through once: it
   refuses as dz_read does before 6, then 6 where no whole TLV of even length stands there, 7 where that has a wrong size. At messageLength, and
   past it, there is none. An octet from 1 on that lies before the tail stands for the tail's start. */
dz_answer dz_walk(const uint8_t *octets, size_t length, size_t from, uint16_t magic, uint64_t found[DZ_FOUND_TLV_WORDS]);

/* The White Rabbit suffix of an Announce: its wrFlags, 0 to 15 (DZ_FOUND_WRFLAGS). Refuses as dz_read, then 3 if it is another message. */
dz_answer dz_suffix(const uint8_t *octets, size_t length, uint16_t magic, uint64_t found[DZ_FOUND_WRFLAGS_WORDS]);

/* The first link message of a Signaling (from DZ_FOUND_LINK_MESSAGE on). Refuses as dz_read, then 3 if it is another message. */
dz_answer dz_link_message(const uint8_t *octets, size_t length, uint16_t magic, uint64_t found[DZ_FOUND_LINK_WORDS]);

/* The origin time of a Sync: that of its Follow_Up where the Sync is two-step, else its own, and then the Follow_Up is not looked at. Refuses as
   dz_read of the Sync, 3 if it is none; then the same of the Follow_Up, and 3 last where sender, domain or sequenceId differ. */
dz_answer dz_origin(const uint8_t *sync, size_t sync_length, const uint8_t *follow, size_t follow_length, uint16_t magic, uint64_t stamp[DZ_STAMP_WORDS]);

/* ---- Writing ------------------------------------------------------------------------------------------------------------------- */

/* Writes a message and its tail to the front of `out`; *written is how many octets. Octets past them stay as they were.
   Refuses 18 where a word does not fit its field, a type is not listed, a timestamp is out of form, the
   tail would be refused when read, or the length would pass 65,535; then 16. */
dz_answer dz_write(uint8_t *out, size_t room, const uint64_t message[DZ_MESSAGE_WORDS], const uint8_t *tail, size_t tail_length, uint16_t magic, uint64_t *written);

/* Writes a Signaling (its twenty words) with one link message. Refuses as dz_write, and 18 for words that are no Signaling or no link message. */
dz_answer dz_write_link(uint8_t *out, size_t room, const uint64_t message[DZ_MESSAGE_WORDS], const uint64_t link[DZ_LINK_MESSAGE_WORDS], uint16_t magic, uint64_t *written);

/* The suffix of an Announce, octets to be its tail, or a part of it. Of wrFlags the lowest four bits are written. Refuses nothing. */
#define DZ_SUFFIX_OCTETS 14
dz_answer dz_write_suffix(uint16_t flags, uint16_t magic, uint8_t tail[DZ_SUFFIX_OCTETS]);

/* ---- Sender records ------------------------------------------------------------------------------------------------------------ */

/* The records of eighteen ports, sixteen senders each. Zeroed words are a fresh clock with intervals of one second. */
#define DZ_PORTS_WORDS 1764

/* A candidate is eleven words, the keys of rank order in their order. */
enum dz_candidate {
    DZ_C_PRIORITY1 = 0,   /* 8 bits */
    DZ_C_CLASS = 1,       /* 8 bits */
    DZ_C_ACCURACY = 2,    /* 8 bits */
    DZ_C_VARIANCE = 3,    /* 16 bits */
    DZ_C_PRIORITY2 = 4,   /* 8 bits */
    DZ_C_GRANDMASTER = 5,
    DZ_C_STEPS = 6,       /* 16 bits */
    DZ_C_SENDER_CLOCK = 7,
    DZ_C_SENDER_PORT = 8, /* 16 bits */
    DZ_C_PORT = 9,        /* the receiver port, 1 to 18 */
    DZ_C_WRFLAGS = 10,    /* 16 bits */
    DZ_CANDIDATE_WORDS = 11
};

/* What a slot keeps of a sender. */
enum dz_record {
    DZ_R_HELD = 0,        /* 1, or 0 where the slot never held a record; then all are 0 */
    DZ_R_SENDER_CLOCK = 1,
    DZ_R_SENDER_PORT = 2,
    DZ_R_SEQUENCE = 3,
    DZ_R_RECEIPTS = 4,    /* 1 or 2, in state that grew from zeros */
    DZ_R_NEWEST = 5,      /* nanoseconds */
    DZ_R_OLDER = 6,       /* 0 where there is one receipt */
    DZ_R_PRIORITY1 = 7,
    DZ_R_CLASS = 8,
    DZ_R_ACCURACY = 9,
    DZ_R_VARIANCE = 10,
    DZ_R_PRIORITY2 = 11,
    DZ_R_GRANDMASTER = 12,
    DZ_R_STEPS = 13,
    DZ_R_WRFLAGS = 14,
    DZ_RECORD_WORDS = 15
};

/* What a port tells of itself. */
enum dz_status {
    DZ_STATUS_LAST = 0,     /* its last accepted time, nanoseconds */
    DZ_STATUS_INTERVAL = 1, /* its interval's exponent, signed */
    DZ_STATUS_WORDS = 2
};

/* Takes the Announce in `octets`, which arrived on `port` at `time` (nanoseconds, not below the port's last). `domain` and `clock` are our
   own. Refuses, in this order: 8, as dz_read, 3 if it is no Announce, 9, 10, 11, 12, 13. */
dz_answer dz_take(uint64_t ports[DZ_PORTS_WORDS], uint64_t port, uint64_t time, const uint8_t *octets, size_t length, uint8_t domain, uint64_t clock, uint16_t magic);

/* A message of a burst: five words. The first four are the host's, the last is written. */
enum dz_burst {
    DZ_BURST_PORT = 0,   /* the port it arrived on */
    DZ_BURST_TIME = 1,   /* when, nanoseconds */
    DZ_BURST_AT = 2,     /* where it begins in the octets lent, and how many it has: of those past the end none is there, and the message */
    DZ_BURST_LENGTH = 3, /* is judged by the ones that are */
    DZ_BURST_ANSWER = 4, /* written: what dz_take answers */
    DZ_BURST_WORDS = 5
};
#define DZ_BURST_MOST 288 /* the most messages of a burst */

/* Takes a run of messages, in their order, as dz_take takes each, and writes every answer beside its message, refusals among them. The messages
   lie anywhere in `octets`, so that a receive ring can be lent as it stands; they may overlap. Messages of different ports that stand next to
   each other may change places: the state and the answers are the same. Refuses 17 for more than DZ_BURST_MOST messages, and then
   none is taken and no answer written; an empty burst does nothing.

   A driver that drains its receive ring (`ring` has the frames, `head` and `tail` count those that came and those that were taken):

       uint64_t burst[DZ_BURST_MOST][DZ_BURST_WORDS];
       while (tail != head) {
           size_t n = 0;
           for (; tail + n != head && n < DZ_BURST_MOST; n++) {
               const struct frame *f = &ring.frames[(tail + n) % RING];
               burst[n][DZ_BURST_PORT] = f->port;
               burst[n][DZ_BURST_TIME] = f->time;
               burst[n][DZ_BURST_AT] = (size_t)(f->octets - ring.octets);
               burst[n][DZ_BURST_LENGTH] = f->length;
           }
           dz_take_burst(ports, ring.octets, sizeof ring.octets, burst, n, domain, clock, magic);
           tail += n;                                                    // not before: from here on the card may fill these frames again
           for (size_t i = 0; i < n; i++)
               if (burst[i][DZ_BURST_ANSWER] != DZ_OK) count_refusal(burst[i]);
       } */
dz_answer dz_take_burst(uint64_t ports[DZ_PORTS_WORDS], const uint8_t *octets, size_t length, uint64_t burst[][DZ_BURST_WORDS], size_t messages, uint8_t domain, uint64_t clock, uint16_t magic);

/* A sender that announces a grandmaster so many steps away, or more, is no candidate: what it says may only be going round in a loop (IEEE 1588-2008,
   9.3.2.5). It is taken and keeps its record as any other, and counts as any other from its first Announce of fewer steps on. */
#define DZ_STEPS_DISTANT 255

/* The candidate in a slot of a port at a time: its record, where the sender's two latest Announces were taken within four intervals and the last one is
   of fewer than DZ_STEPS_DISTANT steps. DZ_SLOTS calls give a port's candidates. A slot past them has none. Refuses 8, then 11. */
dz_answer dz_candidate(const uint64_t ports[DZ_PORTS_WORDS], uint64_t port, size_t slot, uint64_t time, uint64_t found[DZ_FOUND_WORDS]);

/* The best of a port's candidates at a time, first in rank order. Refuses 8, then 11. */
dz_answer dz_best(const uint64_t ports[DZ_PORTS_WORDS], uint64_t port, uint64_t time, uint64_t found[DZ_FOUND_WORDS]);

/* What a port tells of itself. Refuses 8. */
dz_answer dz_status(const uint64_t ports[DZ_PORTS_WORDS], uint64_t port, uint64_t status[DZ_STATUS_WORDS]);

/* The record in a slot of a port, live or expired; a slot past DZ_SLOTS holds none, as one that never held a record. Refuses 8. */
dz_answer dz_record(const uint64_t ports[DZ_PORTS_WORDS], uint64_t port, size_t slot, uint64_t held[DZ_RECORD_WORDS]);

/* Sets a port's announce interval to 2^k seconds. Refuses 8, then 18 for a k outside -3 to 4. */
dz_answer dz_set_interval(uint64_t ports[DZ_PORTS_WORDS], uint64_t port, int8_t k);

/* ---- Ranking and deciding ------------------------------------------------------------------------------------------------------ */

/* A ranked list: how many, 0 to 4, then four candidates. Those past the count are 0 when a call gives them, and not read. */
enum dz_list { DZ_LIST_COUNT = 0, DZ_LIST_FIRST = 1, DZ_LIST_CANDIDATES = 4, DZ_LIST_WORDS = 45 };

/* Where in a list its candidate i stands, from 0. */
#define DZ_LIST_AT(i) (DZ_LIST_FIRST + (i) * DZ_CANDIDATE_WORDS)

/* Our own quality: the first six words of a candidate (DZ_C_PRIORITY1 to DZ_C_GRANDMASTER), our clockIdentity the last of them. */
#define DZ_OWN_WORDS 6

/* What a clock without a better source says of itself: uint64_t own[DZ_OWN_WORDS] = DZ_OWN_DEFAULT(clock). */
#define DZ_OWN_DEFAULT(clock) {128, 248, 0xFE, 0xFFFF, 128, (clock)}

/* A data set for dz_compare: the first nine words are a candidate's (DZ_C_PRIORITY1 to DZ_C_SENDER_PORT), then the receiver. */
enum dz_set { DZ_S_RECEIVER_CLOCK = 9, DZ_S_RECEIVER_PORT = 10, DZ_SET_WORDS = 11 };

/* What a port is to do, as in IEEE 1588-2008, figure 26. S2 is White Rabbit's: a port in the ranked list that could take S1's place. */
enum dz_decision { DZ_M1 = 1, DZ_M2 = 2, DZ_M3 = 3, DZ_S1 = 4, DZ_S2 = 5, DZ_P1 = 6, DZ_P2 = 7 };

static inline const char *dz_decision_text(uint64_t decision)
{
    switch (decision) {
    case DZ_M1: return "M1";
    case DZ_M2: return "M2";
    case DZ_M3: return "M3";
    case DZ_S1: return "S1";
    case DZ_S2: return "S2";
    case DZ_P1: return "P1";
    case DZ_P2: return "P2";
    default: return "?";
    }
}

enum dz_comparison { DZ_A_BETTER = 1, DZ_B_BETTER = 2, DZ_A_BETTER_BY_TOPOLOGY = 3, DZ_B_BETTER_BY_TOPOLOGY = 4, DZ_ERROR_1 = 5, DZ_ERROR_2 = 6 };

static inline const char *dz_comparison_text(uint64_t comparison)
{
    switch (comparison) {
    case DZ_A_BETTER: return "A better";
    case DZ_B_BETTER: return "B better";
    case DZ_A_BETTER_BY_TOPOLOGY: return "A better by topology";
    case DZ_B_BETTER_BY_TOPOLOGY: return "B better by topology";
    case DZ_ERROR_1: return "error-1";
    case DZ_ERROR_2: return "error-2";
    default: return "?";
    }
}

/* The ranked list of a run of candidates, which lie one behind the other, in any order, with repeats: the best of each port, cut after four.
   Refuses 17 for more than DZ_CANDIDATES, then 8 where a candidate's port is none of 1 to 18, then 18 where another word does not fit. */
dz_answer dz_rank(const uint64_t *run, size_t candidates, uint64_t list[DZ_LIST_WORDS]);

/* The ranked list of all that two ranked lists were ranked of, in any order and grouping. Refuses 15, then 18 where a word does not fit. */
dz_answer dz_merge(const uint64_t a[DZ_LIST_WORDS], const uint64_t b[DZ_LIST_WORDS], uint64_t list[DZ_LIST_WORDS]);

/* What a port is to do (*decision is of enum dz_decision): by our own quality, the ranked list of all ports, and the port's best as dz_best
   gives it: with a first word of 0 there is none, and the rest is not looked at; the port in it never is. Refuses 8, then 15, then 18 where a word does not fit. */
dz_answer dz_decide(const uint64_t own[DZ_OWN_WORDS], const uint64_t list[DZ_LIST_WORDS], uint64_t port, const uint64_t best[DZ_FOUND_WORDS], uint64_t *decision);

/* Every port's decision at a time in one call: decisions[p - 1] is that of port p (enum dz_decision), `list` the ranked list of all that
   the eighteen ports hear, its first the best and the rest the backups. Refuses 11 where a port's last accepted time is later, then 18 where a word
   of our own quality does not fit. */
dz_answer dz_decide_all(const uint64_t ports[DZ_PORTS_WORDS], uint64_t now, const uint64_t own[DZ_OWN_WORDS], uint8_t decisions[DZ_PORTS], uint64_t list[DZ_LIST_WORDS]);

/* The parent by our own quality and the ranked list of all ports: the list's first, whose port is the one that is told S1. None where our own clock
   leads. Refuses 15, then 18 where a word does not fit. */
dz_answer dz_parent(const uint64_t own[DZ_OWN_WORDS], const uint64_t list[DZ_LIST_WORDS], uint64_t found[DZ_FOUND_WORDS]);

/* Two data sets compared as IEEE 1588-2008 compares them (*answer is of enum dz_comparison). Refuses 18 where a word does not fit. */
dz_answer dz_compare(const uint64_t a[DZ_SET_WORDS], const uint64_t b[DZ_SET_WORDS], uint64_t *answer);

/* ---- Traces: messages recorded, and replayed -------------------------------------------------------------------------------------- */

/* Messages are recorded in blocks of 512 octets, in the order of their arrival, each with its time and port; blocks one behind the other are a trace. It is
   octets alone, the same on every processor: check 0-1, block number 2-5, first record's time 6-13, record count 14-15, records from 16 on (time 8,
   port 1, length 2, message), the rest zero; numbers big-endian. The check is 1 to 65,535 and makes the sum of the 256 16-bit words a multiple of 65,535. */
#define DZ_BLOCK_OCTETS 512
#define DZ_TRACE_LONGEST 485 /* octets of the longest message that a block has room for */

/* A recording, beside its open block of DZ_BLOCK_OCTETS: zeroed words are a fresh one, whose blocks are numbered from 0; what the open block holds then
   does not matter. To begin with another number, set DZ_RECORDING_NEXT and zero the others. */
enum dz_recording {
    DZ_RECORDING_NEXT = 0, /* the number of the next block that is opened, up to 4,294,967,295 */
    DZ_RECORDING_LAST = 1, /* the last recorded time, nanoseconds */
    DZ_RECORDING_END = 2,  /* where in the open block the next record goes, 0 where none is open */
    DZ_RECORDING_WORDS = 3
};

/* Records a message that arrived on `port` at `time`, before or after it is handed to dz_take: what it says is not looked into. Each block is filled while the
   next record fits; the record that does not closes it. Then *closed is 1 and `block` the closed block, to be written away; else *closed is 0 and `block`
   as it was. Refuses, in this order: 8, 19 for a message of more than DZ_TRACE_LONGEST octets, 11 for a time below the last recorded one on any port, 17 where
   a new block would be past number 4,294,967,295.

   A host that records all that it takes, and the end of its trace:

       static uint64_t recording[DZ_RECORDING_WORDS];                    // zeroed: a fresh recording
       static uint8_t open[DZ_BLOCK_OCTETS];
       uint8_t block[DZ_BLOCK_OCTETS];
       uint64_t closed;
       if (dz_trace_record(recording, open, port, now, octets, length, block, &closed) == DZ_OK && closed) write_away(block);
       ..
       if (dz_trace_finish(recording, open, block, &closed) == DZ_OK && closed) write_away(block);

   Replayed with the same settings, a trace gives the records, candidates and decisions that were live, if they never changed meanwhile and every Announce that
   was taken is in it; messages that were refused may be in it or not. */
dz_answer dz_trace_record(uint64_t recording[DZ_RECORDING_WORDS], uint8_t open[DZ_BLOCK_OCTETS], uint64_t port, uint64_t time, const uint8_t *octets, size_t length, uint8_t block[DZ_BLOCK_OCTETS], uint64_t *closed);

/* The open block as it would be closed now, and *closed is 1; where no record is in it *closed is 0 and `block` as it was. The recording goes on as if
   this had not been asked. It refuses nothing. */
dz_answer dz_trace_finish(const uint64_t recording[DZ_RECORDING_WORDS], const uint8_t open[DZ_BLOCK_OCTETS], uint8_t block[DZ_BLOCK_OCTETS], uint64_t *closed);

/* A record of a block, behind the word DZ_FOUND. */
enum dz_entry {
    DZ_N_TIME = 1,   /* when its message arrived, nanoseconds */
    DZ_N_PORT = 2,   /* on which port */
    DZ_N_AT = 3,     /* where in the block the message begins .. */
    DZ_N_LENGTH = 4, /* .. how many octets it has .. */
    DZ_N_END = 5,    /* .. and where it ends and the next record stands: DZ_N_AT + DZ_N_LENGTH */
    DZ_FOUND_ENTRY_WORDS = 6
};

/* The record at octet `from` of a block, the first at 0. A loop goes through all records of a block that dz_replay_block takes, in order:

       uint64_t entry[DZ_FOUND_ENTRY_WORDS];
       for (uint64_t at = 0; dz_trace_walk(block, at, entry) == DZ_OK && entry[DZ_FOUND]; at = entry[DZ_N_END])
           show(entry[DZ_N_TIME], entry[DZ_N_PORT], block + entry[DZ_N_AT], entry[DZ_N_LENGTH]);

   There is none where no whole record of a port from 1 to 18 stands, whatever the block. It refuses nothing. */
dz_answer dz_trace_walk(const uint8_t block[DZ_BLOCK_OCTETS], size_t from, uint64_t found[DZ_FOUND_ENTRY_WORDS]);

/* What a reader keeps from block to block; zeroed, it has read none. */
enum dz_reader {
    DZ_READER_NEXT = 0, /* the lowest number that the next block may have */
    DZ_READER_LAST = 1, /* the last record's time, nanoseconds */
    DZ_READER_WORDS = 2
};

/* Replays the block in `octets` behind those that the reader has read: its messages are taken, in their order, as dz_take takes each, and those that are
   refused are passed over. A replay begins with `ports` and `reader` zeroed, and the intervals set as they were when the trace was recorded. Refuses 20 where the
   block's check, its layout (another length than DZ_BLOCK_OCTETS too), its number or its times are wrong. */
dz_answer dz_replay_block(uint64_t ports[DZ_PORTS_WORDS], uint64_t reader[DZ_READER_WORDS], const uint8_t *octets, size_t length, uint8_t domain, uint64_t clock, uint16_t magic);

/* Replays a whole trace in one call, from fresh records: what `ports` kept is forgotten but for the intervals, which are settings. *last is the time of the last
   record, 0 where the trace is empty: a time for dz_decide_all. Refuses 20 where dz_replay_block would refuse one of its blocks, a short one at the end too;
   all of them are looked at first. */
dz_answer dz_replay(uint64_t ports[DZ_PORTS_WORDS], const uint8_t *octets, size_t length, uint8_t domain, uint64_t clock, uint16_t magic, uint64_t *last);

/* ---- Captures: pcap files into traces, and traces into pcap files ----------------------------------------------------------------- */

/* A classic pcap file, as tcpdump and Wireshark write it: a head of 24 octets, then packets, each a head of 16 octets and a frame. It is read in all four forms:
   either octet order, microseconds (magic 0xa1b2c3d4) or nanoseconds (0xa1b23c4d); version 2.4 and link type 1 (Ethernet). Frames of EtherType 0x88F7 are
   recorded without their 14-octet head, whatever they hold behind it, padding too; others, tagged ones and those of fewer than 14 octets are passed over. */
#define DZ_CAPTURE_HEAD_OCTETS 24
#define DZ_PACKET_HEAD_OCTETS 16
#define DZ_FRAME_HEAD_OCTETS 14

/* Reads a whole capture into a trace on one port, as a fresh recording makes it of the frames in their order; *written is the trace's length. Octets of `out` behind
   it stay. Refuses, in this order: 21 for a file that is no capture, looked at to its end; 8; what dz_trace_record gives the first frame that it refuses (19, 11);
   16 where the trace has more octets than `room`. dz_replay accepts the trace. */
dz_answer dz_import(uint8_t *out, size_t room, uint64_t port, const uint8_t *octets, size_t length, uint64_t *written);

/* Writes a whole trace as a capture, nanoseconds and big-endian, its snapshot length 65,535, its addresses and other fields zero; *written is the capture's length.
   Octets of `out` behind it stay. Refuses, in this order: 20 as dz_replay does; 22 for records of two ports, or a time whose seconds exceed 32 bits; 16 where the
   capture has more octets than `room`. Read again under its own port, it gives the records of the trace. */
dz_answer dz_export(uint8_t *out, size_t room, const uint8_t *octets, size_t length, uint64_t *written);

/* For a file that is larger than a buffer: its head, and then one packet after another, recorded by dz_capture_record. The file ends behind a packet or behind the
   head; a host that finds another end has met a frame running past the file, which dz_import refuses with 21.

       static uint64_t recording[DZ_RECORDING_WORDS];                    // zeroed: a fresh recording
       static uint8_t open[DZ_BLOCK_OCTETS];
       uint8_t head[DZ_CAPTURE_HEAD_OCTETS], packet[DZ_PACKET_HEAD_OCTETS], frame[DZ_FRAME_HEAD_OCTETS + DZ_TRACE_LONGEST + 1], block[DZ_BLOCK_OCTETS];
       uint64_t form[DZ_FORM_WORDS], is[DZ_PACKET_WORDS], closed;
       fetch(head, sizeof head);
       if (dz_capture_head(head, form) != DZ_OK) return;
       while (fetch(packet, sizeof packet)) {
           if (dz_capture_packet(form, packet, is) != DZ_OK) return;
           size_t lent = is[DZ_K_STORED] < sizeof frame ? (size_t)is[DZ_K_STORED] : sizeof frame; // what a file claims is not believed
           fetch(frame, lent);
           skip(is[DZ_K_STORED] - lent);
           if (dz_capture_record(recording, open, port, is[DZ_K_TIME], frame, lent, block, &closed) == DZ_OK && closed) write_away(block);
       }
       if (dz_trace_finish(recording, open, block, &closed) == DZ_OK && closed) write_away(block); */

/* The form of a file. */
enum dz_form {
    DZ_FORM_LITTLE = 0, /* 0 where the highest octet of a number comes first; 1, or any other number, where the lowest does */
    DZ_FORM_UNIT = 1,   /* the nanoseconds of one count of a fraction: 1000 or 1 */
    DZ_FORM_WORDS = 2
};

/* The form that a file's head tells. Refuses 21 where it is no head of a capture of Ethernet frames. */
dz_answer dz_capture_head(const uint8_t head[DZ_CAPTURE_HEAD_OCTETS], uint64_t form[DZ_FORM_WORDS]);

/* A packet, by its head. */
enum dz_packet {
    DZ_K_TIME = 0,   /* nanoseconds */
    DZ_K_STORED = 1, /* the octets of the frame, which follow the head */
    DZ_PACKET_WORDS = 2
};

/* What a packet's head says. Refuses 21 for a fraction of a second or more, a frame stored short, or a unit that is none. */
dz_answer dz_capture_packet(const uint64_t form[DZ_FORM_WORDS], const uint8_t head[DZ_PACKET_HEAD_OCTETS], uint64_t packet[DZ_PACKET_WORDS]);

/* Records the message of a frame that arrived on `port` at `time`, as dz_trace_record does, or passes the frame over, and then nothing changes but that *closed is 0.
   Of a frame of more than DZ_FRAME_HEAD_OCTETS + DZ_TRACE_LONGEST octets one octet more than that is enough to lend: it is refused with 19, or passed over. */
dz_answer dz_capture_record(uint64_t recording[DZ_RECORDING_WORDS], uint8_t open[DZ_BLOCK_OCTETS], uint64_t port, uint64_t time, const uint8_t *frame, size_t length, uint8_t block[DZ_BLOCK_OCTETS], uint64_t *closed);

/* For a trace that is larger than a buffer: the capture's head, and then the packets of one block after another. */
#define DZ_PACKETS_OCTETS 1351 /* the most that the packets of a block have */

/* What a writer keeps from block to block; zeroed, it has written none. */
enum dz_exporter {
    DZ_EXPORTER_NEXT = 0, /* the lowest number that the next block may have */
    DZ_EXPORTER_LAST = 1, /* the last record's time, nanoseconds */
    DZ_EXPORTER_PORT = 2, /* the port of the records so far, 0 where there is none */
    DZ_EXPORTER_WORDS = 3
};

/* The head of a capture. It refuses nothing. */
dz_answer dz_capture_begin(uint8_t head[DZ_CAPTURE_HEAD_OCTETS]);

/* The packets of a block behind those that were written; *written is how many octets they have, and the octets behind them stay. Refuses 20 as dz_replay_block does, then
   22 as dz_export does. */
dz_answer dz_capture_block(uint64_t exporter[DZ_EXPORTER_WORDS], const uint8_t *octets, size_t length, uint8_t packets[DZ_PACKETS_OCTETS], uint64_t *written);

/* ---- White Rabbit links -------------------------------------------------------------------------------------------------------- */

/* Eighteen links and their settings. Zeroed words are links in IDLE with config 0. */
#define DZ_LINKS_WORDS 72

/* What an event answers: the link after the step, whether the step reports link on, and how many messages are to be sent, then two of them,
   six words each; those past the count are 0. */
enum dz_step {
    DZ_T_STATE = 0,   /* enum dz_state */
    DZ_T_ROLE = 1,    /* enum dz_role: that of the last start */
    DZ_T_MODE = 2,    /* 0 or 1 */
    DZ_T_RETRIES = 3, /* timeouts since the last change of state */
    DZ_T_REPORT = 4,  /* 1 where this step brought the link on */
    DZ_T_SENDS = 5,   /* 0, 1 or 2 */
    DZ_T_FIRST = 6,   /* the first message to send .. */
    DZ_T_SECOND = 12, /* .. and the second */
    DZ_STEP_WORDS = 18
};

enum dz_role { DZ_ROLE_SLAVE = 0, DZ_ROLE_MASTER = 1 };

enum dz_state {
    DZ_STATE_IDLE = 0,
    DZ_STATE_PRESENT = 1,
    DZ_STATE_M_LOCK = 2,
    DZ_STATE_S_LOCK = 3,
    DZ_STATE_LOCKED = 4,
    DZ_STATE_CALIBRATION = 5,
    DZ_STATE_CALIBRATED = 6,
    DZ_STATE_RESP_CALIB_REQ = 7
};

static inline const char *dz_state_text(uint64_t state)
{
    switch (state) {
    case DZ_STATE_IDLE: return "IDLE";
    case DZ_STATE_PRESENT: return "PRESENT";
    case DZ_STATE_M_LOCK: return "M_LOCK";
    case DZ_STATE_S_LOCK: return "S_LOCK";
    case DZ_STATE_LOCKED: return "LOCKED";
    case DZ_STATE_CALIBRATION: return "CALIBRATION";
    case DZ_STATE_CALIBRATED: return "CALIBRATED";
    case DZ_STATE_RESP_CALIB_REQ: return "RESP_CALIB_REQ";
    default: return "?";
    }
}

/* Sets a port's link up: its config (enum dz_config); `calibrate` any number but 0 where the port needs calibration; what its CALIBRATE (retry,
   period) and CALIBRATED (tx, rx) carry. Refuses 8, then 18 for a config above 3. */
dz_answer dz_link_set(uint64_t links[DZ_LINKS_WORDS], uint64_t port, uint8_t config, uint8_t calibrate, uint8_t retry, uint32_t period, uint64_t tx, uint64_t rx);

/* Events of a port's link: a start with the parent's config and mode (any number but 0 is on), a link message by its number, the hardware is
   done, a timeout, a stop. What no rule names is ignored and changes nothing in links that grew from zeros (in other words, bits that no link has are
   cleared). Each refuses 8.

   A message that is lost is sent again at its sender's timeout while the sender is in that message's state. A CALIBRATE whose sender has gone on to
   CALIBRATED, and a WR_MODE_ON, are not sent again, and the draft has no remedy: each side's fourth timeout takes it to IDLE with mode off, but a
   master that has sent WR_MODE_ON stays in IDLE with mode on. A host that sees this starts the slave again. */
dz_answer dz_link_start(uint64_t links[DZ_LINKS_WORDS], uint64_t port, uint8_t config, uint8_t mode, uint64_t step[DZ_STEP_WORDS]);
dz_answer dz_link_take(uint64_t links[DZ_LINKS_WORDS], uint64_t port, uint16_t number, uint64_t step[DZ_STEP_WORDS]);
dz_answer dz_link_done(uint64_t links[DZ_LINKS_WORDS], uint64_t port, uint64_t step[DZ_STEP_WORDS]);
dz_answer dz_link_timeout(uint64_t links[DZ_LINKS_WORDS], uint64_t port, uint64_t step[DZ_STEP_WORDS]);
dz_answer dz_link_stop(uint64_t links[DZ_LINKS_WORDS], uint64_t port, uint64_t step[DZ_STEP_WORDS]);

/* A port's link as it stands, without an event: what an event that is ignored would answer. Refuses 8. */
dz_answer dz_link_status(const uint64_t links[DZ_LINKS_WORDS], uint64_t port, uint64_t step[DZ_STEP_WORDS]);

/* ---- Delay and offset ---------------------------------------------------------------------------------------------------------- */

/* One exchange with a master. Corrections count nanoseconds times 2^16, latencies picoseconds times 2^16, the asymmetry is a ratio
   times 2^40. */
enum dz_exchange {
    DZ_E_T1_SECONDS = 0,
    DZ_E_T1_NANOS = 1,
    DZ_E_SYNC = 2,         /* the Sync's correction, signed */
    DZ_E_FOLLOW = 3,       /* the Follow_Up's, signed; 0 for one-step */
    DZ_E_T2_SECONDS = 4,
    DZ_E_T2_NANOS = 5,
    DZ_E_T2_FRACTION = 6,  /* 16 bits, of a nanosecond */
    DZ_E_T3_SECONDS = 7,
    DZ_E_T3_NANOS = 8,
    DZ_E_T3_FRACTION = 9,
    DZ_E_T4_SECONDS = 10,
    DZ_E_T4_NANOS = 11,
    DZ_E_RESP = 12,        /* the Delay_Resp's correction, signed */
    DZ_E_MASTER_TX = 13,   /* latencies */
    DZ_E_MASTER_RX = 14,
    DZ_E_SLAVE_TX = 15,
    DZ_E_SLAVE_RX = 16,
    DZ_E_ASYMMETRY = 17,   /* signed */
    DZ_EXCHANGE_WORDS = 18
};

/* What an exchange gives. */
enum dz_measured {
    DZ_D_DELAY = 0,   /* signed, nanoseconds times 2^16 */
    DZ_D_SECONDS = 1, /* the offset: whole seconds, signed, rounded down .. */
    DZ_D_REST = 2,    /* .. and a rest below 65,536,000,000,000, nanoseconds times 2^16 */
    DZ_MEASURED_WORDS = 3
};

/* The delay and the offset of an exchange. Refuses 14 for stamps of 10^9 nanoseconds or 2^48 seconds or more, fractions of 2^16 or more, corrections or
   differences not strictly between -2^47 and 2^47, an asymmetry not strictly between -2^39 and 2^39, a latency of 2^50 or more. */
dz_answer dz_measure(const uint64_t exchange[DZ_EXCHANGE_WORDS], uint64_t measured[DZ_MEASURED_WORDS]);

#ifdef __cplusplus
}
#endif

#endif
