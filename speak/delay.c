/* Delay and offset of an exchange with a master. */
#include "speak.h"

static const struct field exchange_fields[] = {
    {U64, DZ_E_T1_SECONDS},
    {U32, DZ_E_T1_NANOS},
    {I64, DZ_E_SYNC},
    {I64, DZ_E_FOLLOW},
    {U64, DZ_E_T2_SECONDS},
    {U32, DZ_E_T2_NANOS},
    {U16, DZ_E_T2_FRACTION},
    {U64, DZ_E_T3_SECONDS},
    {U32, DZ_E_T3_NANOS},
    {U16, DZ_E_T3_FRACTION},
    {U64, DZ_E_T4_SECONDS},
    {U32, DZ_E_T4_NANOS},
    {I64, DZ_E_RESP},
    {U64, DZ_E_MASTER_TX},
    {U64, DZ_E_MASTER_RX},
    {U64, DZ_E_SLAVE_TX},
    {U64, DZ_E_SLAVE_RX},
    {I64, DZ_E_ASYMMETRY},
    {.kind = END},
};

/* DELAY SECONDS REST */
static const struct field measured_fields[] = {
    {I64, DZ_D_DELAY},
    {I64, DZ_D_SECONDS},
    {U64, DZ_D_REST},
    {.kind = END},
};

/* delay T1S T1N SYNC FOLLOW T2S T2N T2F T3S T3N T3F T4S T4N RESP MTX MRX STX SRX A */
bool call_delay(struct clock *clock, struct line *line)
{
    (void)clock; /* all that is measured is in the line */
    uint64_t exchange[DZ_EXCHANGE_WORDS], measured[DZ_MEASURED_WORDS];
    take_fields(line, exchange_fields, exchange);
    if (!line_is_whole(line)) return false;
    if (accepted(dz_measure(exchange, measured))) {
        say("ok");
        show_fields(measured_fields, measured);
    }
    return true;
}
