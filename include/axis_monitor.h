/* The two-channel axis monitor: the functions of libaxis_monitor.a, and those of libaxis_lists.a and libaxis_logs.a below them. C11 or C++11.
   docs/INTEGRATION.md says how to use them. */
#ifndef AXIS_MONITOR_H
#define AXIS_MONITOR_H

#include <stddef.h>
#include <stdint.h>

#define MONITOR_INTERFACE 7 /* the number of this interface, which monitor_interface() must answer */

/* How long the lent arrays are. */
#define MONITOR_DATA 72   /* machine data of a channel, by their numbers; a shorter list leaves the places behind its data 0 */
#define MONITOR_STATE 26  /* words of a channel's state */
#define MONITOR_REPORT 4  /* words of a report */
#define MONITOR_CODES 13  /* cause codes of a cycle */
#define MONITOR_TOLD 3    /* numbers that tell a kit's refusal */
#define MONITOR_LOG 16384 /* most words of a log */
#define MONITOR_KIT 65536 /* most bytes of a kit */
#define MONITOR_TEXT 74880 /* room for any kit's text */

/* A channel as the caller keeps it. Every content stands for some channel; only monitor_read_list makes a fresh one. */
typedef struct monitor_channel {
    int32_t data[MONITOR_DATA];    /* the list in force */
    uint32_t state[MONITOR_STATE]; /* what it keeps from cycle to cycle */
    int32_t pending[MONITOR_DATA]; /* the list asked about; it counts while the state's word PENDING is not 0 */
} monitor_channel;

/* Words of a state; signed numbers stand in two's complement. */
#define MONITOR_STATE_COUNT 0         /* how many data the list has, 51, 67, 69 or 72; 0: no list */
#define MONITOR_STATE_K 1             /* number of the datum that it reports next */
#define MONITOR_STATE_HAS_PREVIOUS 2  /* 1 if there is a previous position */
#define MONITOR_STATE_PREVIOUS 3      /* the previous position, signed */
#define MONITOR_STATE_SELECTED 4      /* 1 if a selection was made */
#define MONITOR_STATE_EFFECTIVE 5     /* MONITOR_NOTHING, MONITOR_SG or MONITOR_SBH */
#define MONITOR_STATE_SG 6            /* effective SG's number less one */
#define MONITOR_STATE_OVERRIDE 7      /* effective SG's override number */
#define MONITOR_STATE_SBH_REFERENCE 8 /* SBH's reference, signed */
#define MONITOR_STATE_DELAY 9         /* cycles left of a lowering */
#define MONITOR_STATE_DIFFERING 10    /* usable cycles running in which the input words differ */
#define MONITOR_STATE_F 11            /* 1 if F is on */
#define MONITOR_STATE_F_LEFT 12       /* cycles left of F's time */
#define MONITOR_STATE_STOP 13         /* MONITOR_FREE, MONITOR_BRAKING, MONITOR_HELD or MONITOR_CANCELLED */
#define MONITOR_STATE_RANK 14         /* the stop's rank, while braking or held */
#define MONITOR_STATE_REST 15         /* cycles left while braking, 0 only behind a commit; the hold's reference, signed, while held */
#define MONITOR_STATE_CAMS 16         /* cam signals, SN1+ in bit 0 */
#define MONITOR_STATE_NX 17           /* 1 if n<nx is 1; worked out while its function is off too, and left as it is by an unusable cycle */
#define MONITOR_STATE_NX_RUN 18       /* usable cycles running in which the speed was below nx, not counted past 1,001 */
/* These six: monitor_cycle leaves them as they are where the inputs are unusable or safe direction is off, and with it off no run and no
   watch begins; monitor_run_log and monitor_commit write them anew, with the same meaning, a commit of a list without safe direction all as 0. */
#define MONITOR_STATE_POSITIVE_RUN 19     /* usable cycles running in which only positive travel was allowed, not counted past 1,001 */
#define MONITOR_STATE_POSITIVE_WATCH 20   /* 1 if the watch stands */
#define MONITOR_STATE_POSITIVE_EXTREME 21 /* the highest position since the watch began, signed; 0 without a watch */
#define MONITOR_STATE_NEGATIVE_RUN 22     /* the same three of negative travel */
#define MONITOR_STATE_NEGATIVE_WATCH 23   /* 1 if the watch stands */
#define MONITOR_STATE_NEGATIVE_EXTREME 24 /* the lowest position since the watch began, signed; 0 without a watch */
#define MONITOR_STATE_PENDING 25          /* how many data the pending list has; 0: none is pending */

#define MONITOR_NOTHING 0   /* nothing is effective */
#define MONITOR_SG 1        /* an SG is effective */
#define MONITOR_SBH 2       /* SBH is effective */
#define MONITOR_FREE 0      /* no stop */
#define MONITOR_BRAKING 1   /* a stop whose time runs */
#define MONITOR_HELD 2      /* C, D or E, held */
#define MONITOR_CANCELLED 3 /* STOP A: pulses cancelled */

/* Words of a report. */
#define MONITOR_REPORT_POSITION 0 /* the position, signed */
#define MONITOR_REPORT_INPUTS 1   /* the whole input word */
#define MONITOR_REPORT_DATUM 2    /* datum k, signed */
#define MONITOR_REPORT_HEAD 3     /* how many data the list has */

/* Bits of an input word. */
#define MONITOR_IN_SBH_SG_OFF 0x00000001u /* SBH/SG de-selected */
#define MONITOR_IN_SBH_OFF 0x00000002u    /* SBH de-selected */
#define MONITOR_IN_SG 0x00000018u         /* SG number less one */
#define MONITOR_IN_SG_AT 3                /* its lowest bit */
#define MONITOR_IN_SE2 0x00001000u        /* SE2 instead of SE1 */
#define MONITOR_IN_STOP_A_OFF 0x00040000u /* external STOP A de-selected */
#define MONITOR_IN_STOP_C_OFF 0x00080000u /* external STOP C de-selected */
#define MONITOR_IN_STOP_D_OFF 0x00100000u /* external STOP D de-selected */
#define MONITOR_IN_STOP_E_OFF 0x00200000u /* external STOP E de-selected */
#define MONITOR_IN_OVERRIDE 0xf0000000u   /* override number */
#define MONITOR_IN_OVERRIDE_AT 28         /* its lowest bit */
#define MONITOR_IN_BITS 0xf03c101bu       /* all of these: what an input word may have with a list of 51 data */
#define MONITOR_IN_GEAR 0x00000700u       /* number of the gear ratio; must be 0 with a list of 51 data */
#define MONITOR_IN_GEAR_AT 8              /* its lowest bit */
#define MONITOR_IN_POSITIVE_ONLY_OFF 0x00002000u /* 0: only positive travel is allowed; must be 0 while safe direction is off */
#define MONITOR_IN_NEGATIVE_ONLY_OFF 0x00004000u /* 0: only negative travel is allowed; as before. Every bit that is not named must be 0 */

/* Bits of a channel word. */
#define MONITOR_WORD_EFFECTIVE 0x00000001u /* SBH or SG effective */
#define MONITOR_WORD_CANCELLED 0x00000004u /* pulses cancelled: rank A */
#define MONITOR_WORD_ALWAYS 0x00000080u    /* always 1 */
#define MONITOR_WORD_CAMS 0x0000ff00u      /* cam signals, SN1+ lowest */
#define MONITOR_WORD_CAMS_AT 8             /* their lowest bit */
#define MONITOR_WORD_SG 0x00180000u        /* effective SG less one */
#define MONITOR_WORD_SG_AT 19              /* its lowest bit */
#define MONITOR_WORD_NX 0x00200000u        /* n<nx; 0 while its function is off and in an unusable cycle */
#define MONITOR_WORD_RANK 0x07000000u      /* rank */
#define MONITOR_WORD_RANK_AT 24            /* its lowest bit */
#define MONITOR_WORD_HELD 0x08000000u      /* held */
#define MONITOR_WORD_F 0x10000000u         /* F */

/* Bits of a device word. */
#define MONITOR_DEVICE_PULSES 0x1u /* pulses on */
#define MONITOR_DEVICE_RANK 0xeu   /* rank */
#define MONITOR_DEVICE_RANK_AT 1   /* its lowest bit */

/* Ranks. */
#define MONITOR_RANK_NONE 0 /* no stop */
#define MONITOR_RANK_E 1    /* STOP E */
#define MONITOR_RANK_D 2    /* STOP D */
#define MONITOR_RANK_C 3    /* STOP C */
#define MONITOR_RANK_B 4    /* STOP B */
#define MONITOR_RANK_A 5    /* STOP A */

/* Cause codes. */
#define MONITOR_CAUSE_UNUSABLE 1  /* inputs or position cannot be used */
#define MONITOR_CAUSE_SBH 2       /* SBH: too far from its reference */
#define MONITOR_CAUSE_SG 3        /* SG: too fast */
#define MONITOR_CAUSE_SE 4        /* outside SE */
#define MONITOR_CAUSE_STOP_A 5    /* external STOP A */
#define MONITOR_CAUSE_STOP_C 6    /* external STOP C */
#define MONITOR_CAUSE_STOP_D 7    /* external STOP D */
#define MONITOR_CAUSE_STOP_E 8    /* external STOP E */
#define MONITOR_CAUSE_HOLD 9      /* a hold was left */
#define MONITOR_CAUSE_POSITION 10 /* position differs from the report */
#define MONITOR_CAUSE_INPUTS 11   /* input words differ for too long */
#define MONITOR_CAUSE_DATUM 12    /* datum k or the number of data differs */
#define MONITOR_CAUSE_F 13        /* F's time is over, and SBH or an SG is effective, or SE or the cams are on */
#define MONITOR_CAUSE_DIRECTION 14 /* safe direction: too far the forbidden way */

/* Answers of monitor_read_list, monitor_run_log, monitor_ask and monitor_commit, and told[0] of monitor_run_kit. */
#define MONITOR_ACCEPTED 0       /* accepted */
#define MONITOR_REFUSED_WORD 1   /* list word missing, of wrong kind, number or bits */
#define MONITOR_REFUSED_OPEN 2   /* datum open */
#define MONITOR_REFUSED_FLOAT 3  /* float stands for no whole number */
#define MONITOR_REFUSED_RANGE 4  /* datum out of range */
#define MONITOR_REFUSED_SE 5     /* SE minus not below its plus */
#define MONITOR_REFUSED_LOG 6    /* log too long, or a word missing or wrong */
#define MONITOR_REFUSED_OUTPUT 7 /* output below 3 words a cycle */
#define MONITOR_REFUSED_PENDING 8 /* commit with nothing pending */

#define MONITOR_DATUM_T 0              /* number of the datum T, the cycle in ms */
#define MONITOR_DATUM_NUMERATOR 51     /* number of the first gear ratio's numerator; the others follow it */
#define MONITOR_DATUM_DENOMINATOR 59   /* number of its denominator */
#define MONITOR_DATUM_NX_HYSTERESIS 67 /* number of the hysteresis of n<nx, in mm/min */
#define MONITOR_DATUM_NX_FILTER 68     /* number of the filter of n<nx, in cycles */
#define MONITOR_DATUM_DIRECTION_TOLERANCE 69 /* number of the tolerance of safe direction, in micrometres */
#define MONITOR_DATUM_DIRECTION_DELAY 70     /* number of its delay, in cycles */
#define MONITOR_DATUM_DIRECTION_STOP 71      /* number of the rank of its stop */

#ifdef __cplusplus
#define MONITOR_HOLDS(fact) static_assert(fact, #fact)
extern "C" {
#else
#define MONITOR_HOLDS(fact) _Static_assert(fact, #fact)
#endif

#ifndef MONITOR_OWN_BOARD /* a fact of the archives, not of a board that is tried with this header */
MONITOR_HOLDS(sizeof(size_t) == 8);
#endif
MONITOR_HOLDS(sizeof(monitor_channel) == 680);
MONITOR_HOLDS(offsetof(monitor_channel, state) == 288);
MONITOR_HOLDS(offsetof(monitor_channel, pending) == 392);

/* The number of the library's interface. */
uint32_t monitor_interface(void);

/* Reads a list: MONITOR_ACCEPTED, a fresh channel and in *at the words used; or a refusal's number and place, the channel as it was. */
uint32_t monitor_read_list(const uint32_t *words, size_t words_len, int32_t data[MONITOR_DATA], uint32_t state[MONITOR_STATE],
                           size_t *at);

/* A channel's report of a cycle, for the other channel; made before either channel's cycle. */
void monitor_report(const int32_t data[MONITOR_DATA], const uint32_t state[MONITOR_STATE], int32_t position, uint32_t inputs,
                    uint32_t report[MONITOR_REPORT]);

/* A channel's cycle: its channel word; in causes the codes that stand, strongest rank first, those without a rank last, equal ranks by
   code, with 0 behind them. Any acknowledged but 0 is yes. */
uint32_t monitor_cycle(const int32_t data[MONITOR_DATA], uint32_t state[MONITOR_STATE], int32_t position, uint32_t inputs,
                       uint32_t acknowledged, const uint32_t report[MONITOR_REPORT], uint8_t causes[MONITOR_CODES]);

/* The device word of two channel words. */
uint32_t monitor_device_word(uint32_t a, uint32_t b);

/* ---- libaxis_lists.a: new limits without stopping ---- */

/* Asks about a list: MONITOR_ACCEPTED, the list in pending, how many data it has in the state's word PENDING, in *at the words used, and in
   causes the codes, as monitor_cycle gives them but without 13, of a cycle with this position, inputs and report straight after its commit;
   or a refusal's number and place: then none is pending, and all else, pending and causes too, is as it was. A list that is pending is
   dropped by the channel's next cycle, single or in a log. */
uint32_t monitor_ask(const uint32_t *words, size_t words_len, uint32_t state[MONITOR_STATE], int32_t pending[MONITOR_DATA],
                     int32_t position, uint32_t inputs, const uint32_t report[MONITOR_REPORT], uint8_t causes[MONITOR_CODES],
                     size_t *at);

/* Commits the pending list: MONITOR_ACCEPTED, the list in data and in *at how many data it has; the channel goes on with it. With none
   pending MONITOR_REFUSED_PENDING, *at 0 and the channel as it was. */
uint32_t monitor_commit(int32_t data[MONITOR_DATA], uint32_t state[MONITOR_STATE], const int32_t pending[MONITOR_DATA], size_t *at);

/* ---- libaxis_logs.a: recorded logs and kits ---- */

/* Runs a log: MONITOR_ACCEPTED, 3 words a cycle at the output's front and in *at the cycles; or 6 or 7 and in *at the place or the
   words wanted, channels and output as they were. */
uint32_t monitor_run_log(const int32_t data_a[MONITOR_DATA], uint32_t state_a[MONITOR_STATE], const int32_t data_b[MONITOR_DATA],
                         uint32_t state_b[MONITOR_STATE], const uint32_t *words, size_t words_len, uint32_t *out, size_t out_len,
                         size_t *at);

/* Lists a kit's bytes as the bench does: the length of the text, which stands at the output's front if there is room for all of it. */
size_t monitor_list_kit(const uint8_t *kit, size_t kit_len, uint8_t *out, size_t out_len);

/* Runs a kit's words: the cycles, 3 words each, and told 0, 0, 0; or 0, and told the refusal's number, its place and
   the letter of its part: 'A', 'B' or 'L'. */
size_t monitor_run_kit(const uint32_t *words, size_t words_len, uint32_t *out, size_t out_len, uint64_t told[MONITOR_TOLD]);

#ifdef __cplusplus
}
#endif

#endif
