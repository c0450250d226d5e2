/* A link message taken by hand in C: four words a port, the link's, its settings', deltaTx and deltaRx. */
#include "hand.h"

enum { LINK, SETTINGS, DELTA_TX, DELTA_RX, LINK_WORDS };

/* A link: the state in three bits, the role, the mode, and the retry count in eight. Bits past these say nothing, and a step clears them. */
enum { LINK_BITS = (1 << 13) - 1 };
static inline uint64_t state_of(uint64_t link) { return link % 8; }
static inline uint64_t role_of(uint64_t link) { return link / 8 % 2; }
static inline uint64_t mode_of(uint64_t link) { return link / 16 % 2; }
static inline uint64_t retries_of(uint64_t link) { return link / 32 % 256; }
static inline uint64_t link_of(uint64_t state, uint64_t role, uint64_t mode) { return state | role << 3 | mode << 4; }

/* The message that a state waits for, and the state that it leads to; IDLE is reached with the link on. */
struct wait { uint16_t number; uint8_t next; };
static const struct wait waits[2][8] = {
    [DZ_ROLE_SLAVE] = {
        [DZ_STATE_PRESENT] = {DZ_LINK_LOCK, DZ_STATE_S_LOCK},
        [DZ_STATE_LOCKED] = {DZ_LINK_CALIBRATE, DZ_STATE_RESP_CALIB_REQ},
        [DZ_STATE_RESP_CALIB_REQ] = {DZ_LINK_CALIBRATED, DZ_STATE_CALIBRATION},
        [DZ_STATE_CALIBRATED] = {DZ_LINK_WR_MODE_ON, DZ_STATE_IDLE},
    },
    [DZ_ROLE_MASTER] = {
        [DZ_STATE_M_LOCK] = {DZ_LINK_LOCKED, DZ_STATE_CALIBRATION},
        [DZ_STATE_CALIBRATED] = {DZ_LINK_CALIBRATE, DZ_STATE_RESP_CALIB_REQ},
        [DZ_STATE_RESP_CALIB_REQ] = {DZ_LINK_CALIBRATED, DZ_STATE_IDLE},
    },
};

static void send(uint64_t *step, uint64_t number)
{
    step[DZ_T_SENDS] = 1;
    step[DZ_T_FIRST + DZ_L_NUMBER] = number;
}

static void put_calibrate(uint64_t *message, uint64_t settings)
{
    message[DZ_L_NUMBER] = DZ_LINK_CALIBRATE;
    message[DZ_L_PATTERN] = settings / 4 % 2;
    message[DZ_L_RETRY] = settings / 8 % 256;
    message[DZ_L_PERIOD] = settings / 2048 % 4294967296;
}

/* CALIBRATION sends CALIBRATE, and CALIBRATED with it where the port needs no calibration. The state after that. */
static uint64_t calibrate(const uint64_t *port, uint64_t *step)
{
    put_calibrate(step + DZ_T_FIRST, port[SETTINGS]);
    step[DZ_T_SENDS] = 1;
    if (port[SETTINGS] / 4 % 2) return DZ_STATE_CALIBRATION;
    step[DZ_T_SENDS] = 2;
    step[DZ_T_SECOND + DZ_L_NUMBER] = DZ_LINK_CALIBRATED;
    step[DZ_T_SECOND + DZ_L_TX] = port[DELTA_TX];
    step[DZ_T_SECOND + DZ_L_RX] = port[DELTA_RX];
    return DZ_STATE_CALIBRATED;
}

/* The link after a message, and what it sends into a step of zeros. */
static uint64_t after(const uint64_t *port, uint16_t number, uint64_t *step)
{
    uint64_t link = port[LINK] & LINK_BITS, role = role_of(link), mode = mode_of(link), config = port[SETTINGS] % 4;
    struct wait wait = waits[role][state_of(link)];
    if (state_of(link) == DZ_STATE_IDLE) {
        if (number != DZ_LINK_SLAVE_PRESENT || !(config & DZ_CONFIG_MASTER)) return link;
        send(step, DZ_LINK_LOCK);
        return link_of(DZ_STATE_M_LOCK, DZ_ROLE_MASTER, mode);
    }
    if (wait.number != number || number == 0) return link;
    if (wait.next == DZ_STATE_CALIBRATION) return link_of(calibrate(port, step), role, mode);
    if (wait.next != DZ_STATE_IDLE) return link_of(wait.next, role, mode);
    step[DZ_T_REPORT] = 1;
    if (role == DZ_ROLE_MASTER) send(step, DZ_LINK_WR_MODE_ON);
    return link_of(DZ_STATE_IDLE, role, 1);
}

dz_answer c_link_take(uint64_t *links, uint64_t port, uint16_t number, uint64_t *step)
{
    uint64_t *p, link;
    if (!is_port(port)) return DZ_REFUSED_PORT;
    p = links + (port - 1) * LINK_WORDS;
    for (int i = 0; i < DZ_STEP_WORDS; i++) step[i] = 0;
    p[LINK] = link = after(p, number, step);
    step[DZ_T_STATE] = state_of(link);
    step[DZ_T_ROLE] = role_of(link);
    step[DZ_T_MODE] = mode_of(link);
    step[DZ_T_RETRIES] = retries_of(link);
    return DZ_OK;
}
