/* Which numbers make up a message, a candidate and a link message, in the order of the line protocol. */
#include "speak.h"

const struct field header_fields[] = {
    {U8, DZ_M_TRANSPORT},
    {U8, DZ_M_DOMAIN},
    {U16, DZ_M_FLAGS},
    {I64, DZ_M_CORRECTION},
    {CLOCK, DZ_M_CLOCK},
    {U16, DZ_M_PORT},
    {U16, DZ_M_SEQUENCE},
    {I8, DZ_M_INTERVAL},
    {.kind = END},
};

/* A Sync, a Delay_Req or a Follow_Up. */
static const struct field timestamp_fields[] = {
    {U64, DZ_M_SECONDS},
    {U32, DZ_M_NANOS},
    {.kind = END},
};

static const struct field delay_resp_fields[] = {
    {U64, DZ_M_SECONDS},
    {U32, DZ_M_NANOS},
    {CLOCK, DZ_M_REQUESTER_CLOCK},
    {U16, DZ_M_REQUESTER_PORT},
    {.kind = END},
};

static const struct field announce_fields[] = {
    {U64, DZ_M_SECONDS},
    {U32, DZ_M_NANOS},
    {I16, DZ_M_UTC},
    {U8, DZ_M_PRIORITY1},
    {U8, DZ_M_CLASS},
    {U8, DZ_M_ACCURACY},
    {U16, DZ_M_VARIANCE},
    {U8, DZ_M_PRIORITY2},
    {CLOCK, DZ_M_GRANDMASTER},
    {U16, DZ_M_STEPS},
    {U8, DZ_M_SOURCE},
    {.kind = END},
};

static const struct field signaling_fields[] = {
    {CLOCK, DZ_M_TARGET_CLOCK},
    {U16, DZ_M_TARGET_PORT},
    {.kind = END},
};

/* What a candidate and a data set have alike. */
#define MASTER_FIELDS \
    {U8, DZ_C_PRIORITY1}, {U8, DZ_C_CLASS}, {U8, DZ_C_ACCURACY}, {U16, DZ_C_VARIANCE}, {U8, DZ_C_PRIORITY2}, {CLOCK, DZ_C_GRANDMASTER}, \
        {U16, DZ_C_STEPS}, {CLOCK, DZ_C_SENDER_CLOCK}, {U16, DZ_C_SENDER_PORT}

const struct field candidate_fields[] = {
    MASTER_FIELDS,
    {U8, DZ_C_PORT},
    {U16, DZ_C_WRFLAGS},
    {.kind = END},
};

const struct field set_fields[] = {
    MASTER_FIELDS,
    {CLOCK, DZ_S_RECEIVER_CLOCK},
    {U16, DZ_S_RECEIVER_PORT},
    {.kind = END},
};

static const struct field calibrate_fields[] = {
    {U8, DZ_L_PATTERN},
    {U8, DZ_L_RETRY},
    {U32, DZ_L_PERIOD},
    {.kind = END},
};

static const struct field calibrated_fields[] = {
    {U64, DZ_L_TX},
    {U64, DZ_L_RX},
    {.kind = END},
};

static const struct field no_fields[] = {{.kind = END}};

/* The body of a message of some type; a type that is not listed has none. */
const struct field *body_fields(uint64_t type)
{
    switch (type) {
    case DZ_SYNC:
    case DZ_DELAY_REQ:
    case DZ_FOLLOW_UP: return timestamp_fields;
    case DZ_DELAY_RESP: return delay_resp_fields;
    case DZ_ANNOUNCE: return announce_fields;
    case DZ_SIGNALING: return signaling_fields;
    default: return no_fields;
    }
}

/* What a link message of some number carries. */
const struct field *link_message_fields(uint64_t number)
{
    switch (number) {
    case DZ_LINK_CALIBRATE: return calibrate_fields;
    case DZ_LINK_CALIBRATED: return calibrated_fields;
    default: return no_fields;
    }
}
