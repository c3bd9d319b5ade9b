/*
 * Cerambiu: a rules engine for the lighting of poultry houses, proved. This is its C interface: eight calls over words that the caller lends, one
 * that says what starts next by the wall clock, one that reads back a rule's starts by the sun, one that makes of a tick's effects the list to be
 * sent on the bus, one that reads a line of a crontab into triggers, one that tells how much room an image needs, one that numbers all short lists of a set of actions, for the bench, and one
 * that writes an image anew, equal sets as equal words.
 *
 * Link target/staticlib/libcerambiu.a (`.ci/build` writes it; 80 KiB of code and constants). The library keeps nothing between calls, allocates
 * nothing, reads no clock, calls nothing but memcpy, memmove and memset, and every call returns. All that it remembers of a house is in one store
 * of 16,384 words, which the caller keeps.
 *
 *   words     A word is a uint32_t in the machine's byte order. A 64-bit value in a table is two words, low first. A signed word is two's
 *             complement. A mark is 0 or 1. A time is in milliseconds, 64 bits, from a start that stays for the
 *             life of a store (docs/FOR-FIRMWARE.md, "Time and power"); a clock that goes back is no error.
 *   slices    A lent store is a pointer and its number of words. The pointer is aligned for uint32_t; with 0 words it may be anything.
 *             Stores of one call do not overlap. A store that is not const is written within its words only. A text is a pointer and its number of
 *             bytes.
 *   threads   Two calls may run at once if they share no store that either of them writes.
 *   stack     In bytes, at most, for every input, on x86-64: tick 25,080, load 21,176, run 20,808, enable 20,504, next_deadline 20,664,
 *             unload 20,472, counters 15,192, next_start 15,496, readback 15,432, room 14,264, rewrite 13,848, crontab 400, short_list 120,
 *             telegrams 120, new 56. The gate computes them from the machine code. The return address is in;
 *             not in: what memcpy, memmove and memset use, the arguments that the caller pushes, the dynamic linker, interrupts
 *             (docs/PERFORMANCE.md, "Stack").
 *   refusals  Each call returns 0, or the number of a refusal: the lowest that applies. A refused call has changed nothing: the store is as
 *             it was, and every word of the outcomes, the effects and the answer is 0.
 *   answers   Values go into the lent `answer`. Values past its end are not written; words behind the values are 0. Fewer words than a call has
 *             values, or none, are fine.
 *   names     Names, texts, topics, schedules and light targets are words, numbered by the caller for the life of a store. Rules and timers are
 *             served in the order of their numbers, so that they are numbered in the byte order of their spelling. Numbers need not follow each
 *             other: leave room between two for names that come later (steps of 65,536, say). Where no number is left between two, number
 *             all anew and make the store new: it remembers rules, timers and variables by their numbers.
 *   weekdays  0 to 6; which day is 0 is the caller's choice, the same in every snapshot and in every image (bit d of days is weekday d).
 *   lighting  The engine hands these words on and does not look into them, but for their range: a light target (a lamp, a group ..), a verb (what a
 *             target is to do: on, off, a level, a colour ..), a scene (a stored setting of lights, by number), a schedule. HCL, human centric
 *             lighting, drives targets by schedules of the day, outside the engine; the hold mark of an effect asks HCL to leave its target alone.
 *             A rule has a hold mark for its effects; a Light or a Percent may have its own.
 *
 * Each function's contract in crates/cerambiu_c/src/lib.rt is one equation with the definitions of crates/model/specs, proved for all arguments.
 */
#ifndef CERAMBIU_H
#define CERAMBIU_H

#include <stdbool.h>
#include <stddef.h>
#include <stdint.h>

#ifdef __cplusplus
extern "C" {
#endif

/* SIZES, in words ------------------------------------------------------------------------------------------------------------------ */

#define CERAMBIU_STORE_WORDS 16384       /* a store, exactly */
#define CERAMBIU_IMAGE_MIN_WORDS 13      /* a rule image: the trailer alone .. */
#define CERAMBIU_IMAGE_MAX_WORDS 4096    /* .. to this */
#define CERAMBIU_SNAPSHOT_HEAD_WORDS 14  /* a snapshot without rows .. */
#define CERAMBIU_SNAPSHOT_MAX_WORDS 4430 /* .. and with all rows that its counts allow */
#define CERAMBIU_OUTCOME_WORDS 8         /* one outcome; a lent store of n words holds n / 8 */
#define CERAMBIU_EFFECT_WORDS 5          /* one effect; a lent store of n words holds n / 5 */
#define CERAMBIU_TRIGGER_WORDS 8         /* one trigger of an image; a lent store of n words holds n / 8 */
#define CERAMBIU_CRONTAB_MAX_TRIGGERS 1440 /* a line of a crontab has at most one for each minute of a day */
#define CERAMBIU_SOLAR_START_WORDS 3     /* one start of a readback; a lent store of n words holds n / 3 */
#define CERAMBIU_RULE_MAX_TRIGGERS 508   /* more do not fit into an image beside a rule; so many starts are always enough */

/* A run has at most 1 outcome. A tick has at most 1,184: 32 continuations, 16 timers for 64 rules each, 64 Every slots, 64 rules by the wall
 * clock. An outcome has at most as many effects as the image's budget (1 to 256), and a tick at most 59,360 for any image. What the set of an image can need,
 * which is mostly far less, cerambiu_room tells before it is loaded. A call that needs more room than was lent is refused with 30 and can be made again with
 * more; with no more the later ticks are refused too, since what is due stays due. So lend what cerambiu_room tells, or do not load (examples/c/room.c). */
#define CERAMBIU_TICK_MAX_OUTCOMES 1184
#define CERAMBIU_TICK_MAX_EFFECTS 59360
#define CERAMBIU_OUTCOME_MAX_EFFECTS 256

/* Values of each call that has any. */
#define CERAMBIU_ENABLE_VALUES 1    /* 1 yes, 0 no such rule */
#define CERAMBIU_TICK_VALUES 2      /* number of outcomes, number of effects */
#define CERAMBIU_RUN_VALUES 2       /* the same */
#define CERAMBIU_DEADLINE_VALUES 3  /* mark, low word, high word; all 0 where there is no deadline */
#define CERAMBIU_COUNTERS_VALUES 16 /* see enum cerambiu_counter */
#define CERAMBIU_NEXT_START_VALUES 3 /* see enum cerambiu_next_start_mark; minutes, rule */
#define CERAMBIU_READBACK_VALUES 1  /* number of starts */
#define CERAMBIU_TELEGRAMS_VALUES 2 /* number of effects kept, low word and high word */
#define CERAMBIU_CRONTAB_VALUES 1   /* number of triggers */
#define CERAMBIU_ROOM_VALUES 2      /* outcomes, effects */
#define CERAMBIU_SHORT_LIST_VALUES 4 /* length, and three places, 0 past the length */
#define CERAMBIU_REWRITE_VALUES 1   /* number of words */

/* REFUSALS, and who can cause each ------------------------------------------------------------------------------------------------- */

enum cerambiu_refusal {
    CERAMBIU_OK = 0,

    /* the host: the program that makes the calls */
    CERAMBIU_STORE_SIZE = 1,     /* any call: the store is not 16,384 words */
    CERAMBIU_STORE_RULE = 2,     /* any call but new: the store breaks a store rule (docs/STORE.md, document 01); make it new */

    /* the rule author: load, room and rewrite */
    CERAMBIU_IMAGE_SIZE = 10,    /* under 13 or over 4,096 words */
    CERAMBIU_IMAGE_LIMIT = 11,   /* a limit of the trailer out of range */
    CERAMBIU_IMAGE_TABLE = 12,   /* a table out of place, or no whole number of records */
    CERAMBIU_IMAGE_FIELD = 13,   /* unknown kind, field out of range, or unused word not 0; in any record, used or not */
    CERAMBIU_IMAGE_INDEX = 14,   /* index or list outside its table, or a nested list, not empty, that does not start after its holder */
    CERAMBIU_IMAGE_NAMES = 15,   /* two rules of one name */
    CERAMBIU_IMAGE_STEPS = 16,   /* over 2,048 flat steps, after bodies shared by the copies of a Repeat once, or over 65,536 actions taken */
    CERAMBIU_IMAGE_COUNT = 17,   /* over 64 rules, blocks or Every slots */

    /* the bus driver: tick, run, next_start and readback */
    CERAMBIU_SNAPSHOT_SIZE = 20,  /* under 14 words, or not as counted */
    CERAMBIU_SNAPSHOT_FIELD = 21, /* field or count out of range, or a missing field's value not 0 */
    CERAMBIU_SNAPSHOT_ROWS = 22,  /* two rows of one table with equal address */

    /* the host: tick and run; 30 readback too */
    CERAMBIU_NO_ROOM = 30,       /* more outcomes or effects than the lent stores hold, never where what cerambiu_room tells is lent; or more starts */
    CERAMBIU_NO_NUMBER = 31,     /* the call's continuations would take the next sequence number past 2^64 - 1 */
    CERAMBIU_NO_ACTIVATION_NUMBER = 32, /* the call's activations would take the last activation number past 2^64 - 1 */

    /* rewrite alone: the rule author, and the host */
    CERAMBIU_REWRITE_SIZE = 40,  /* the new image would exceed 4,096 words */
    CERAMBIU_REWRITE_ROOM = 41,  /* the host's: fewer words lent than the new image has */

    /* who writes the line: crontab alone */
    CERAMBIU_CRONTAB_FORM = 50,  /* the line is not of the POSIX form, or Sunday's number is above 6 */
    CERAMBIU_CRONTAB_DATE = 51,  /* day of month or month is not an asterisk */
    CERAMBIU_CRONTAB_ROOM = 52,  /* the host's: more triggers than the lent store holds */

    /* the host: telegrams alone */
    CERAMBIU_NO_EFFECTS = 60,    /* the words are no whole number of effects, or one has a kind above 12 */
    CERAMBIU_LIST_SHORT = 61,    /* fewer words lent for the list than 5 for each effect kept */

    /* who writes the set: short_list alone */
    CERAMBIU_SET_ACTIONS = 70,   /* no action record, more than 8, or no whole number of them */
    CERAMBIU_SET_RECORD = 71,    /* a record with a list of its own, or one, or values or a pool, that load would refuse */
    CERAMBIU_SET_LIST = 72       /* the number is not below the count of lists */
};

/* STORE ------------------------------------------------------------------------------------------------------------------------------
 *
 * 16,384 words, made by cerambiu_new from whatever they held. A caller keeps them, copies them, saves them and brings them back; it need not look
 * inside. A store that was changed from outside is refused with 2 unless it still keeps every store rule. Words that are all 0 keep them: they are a
 * store without rules, so that 2 does not tell a store that was never made. What it holds: the last time, the
 * loaded image and its flat steps, rule bits, last activations, cycle positions, at most 16 variables, 16 timers, 64 Every slots and 32 pending
 * continuations, the previous week minute, the next sequence number, the last activation number, 12 counters. Places: docs/STORE.md.
 *
 * RULE IMAGE -------------------------------------------------------------------------------------------------------------------------
 *
 * Eight tables, then a trailer of the last 13 words:
 *
 *   0  budget, 1 to 256: steps that one run may take; a continuation begins with what was left when it was scheduled
 *   1  call depth, 0 to 8     2  repeat limit, 1 to 255     3  text limit, 0 to 255     4  group limit, 0 to 255
 *   5 to 12  first word of each table: rules, blocks, triggers, conditions, actions, values, time bounds, pool
 *
 * The first table starts at word 0, each ends where the next begins, the last at the trailer. A list is its first record's index and its count;
 * an empty one may start at the table's end. Words past a record's fields are 0.
 *
 *   rule (16 words)   name, enabled mark, hold mark, cooldown ms, list of triggers, list of conditions, list of actions, six 0
 *   block (8 words)   name, list of actions, five 0. At most 64 rules, 64 blocks, 64 Every triggers over the rules' lists.
 *   pool (1 word)     a scene, 0 to 255
 *
 * The other records are 8 words: a kind, then its fields. In the tables below: byte 0 to 255, id 0 to 65,535, ms a word, cmp one of enum
 * cerambiu_comparison, value / condition / bound an index into that table, actions a list (two words) that starts after its holder if it is not empty.
 */

enum cerambiu_action {
    CERAMBIU_LIGHT = 0,           /* target, hold (0, 1, 2 the rule's), answer (0 verb, 1 nothing, 2 unevaluable), verb (0 unless answer 0) */
    CERAMBIU_RECALL = 1,          /* answer (0 number, 1 unevaluable), scene byte (0 unless answer 0), target mark, target (0 without mark) */
    CERAMBIU_APPLY = 2,           /* answer (0 number, 1 unevaluable), scene byte (0 unless answer 0) */
    CERAMBIU_CYCLE = 3,           /* first pool word, count 0 to 16 */
    CERAMBIU_HCL_RESUME = 4,      /* target */
    CERAMBIU_HCL_HOLD = 5,        /* target */
    CERAMBIU_HCL_ENABLE = 6,      /* schedule */
    CERAMBIU_HCL_DISABLE = 7,     /* schedule */
    CERAMBIU_FEEDBACK_ON = 8,     /* adapter byte, address byte, instance byte */
    CERAMBIU_FEEDBACK_OFF = 9,    /* the same */
    CERAMBIU_PANEL_SELECT = 10,   /* adapter byte, group byte, value: 0 to the group limit */
    CERAMBIU_CANCEL_HOLD = 11,    /* adapter byte, address byte, instance byte */
    CERAMBIU_CATCH_MOVEMENT = 12, /* the same */
    CERAMBIU_TIMER_START = 13,    /* timer, ms; does nothing while the timer runs */
    CERAMBIU_TIMER_RESTART = 14,  /* timer, ms */
    CERAMBIU_TIMER_CANCEL = 15,   /* timer */
    CERAMBIU_VAR_SET = 16,        /* name, tag 0, low, high: an integer; or name, tag 1, text, its number of bytes (up to the text limit) */
    CERAMBIU_VAR_ADD = 17,        /* name, value */
    CERAMBIU_RULE_ENABLE = 18,    /* rule name */
    CERAMBIU_RULE_DISABLE = 19,   /* rule name; its pending continuations go */
    CERAMBIU_MQTT_PUBLISH = 20,   /* topic, payload, retain mark */
    CERAMBIU_LOG = 21,            /* text */
    CERAMBIU_STAT_COUNT = 22,     /* name; takes a step and gives nothing */
    CERAMBIU_WAIT = 23,           /* ms; what follows it becomes a continuation */
    CERAMBIU_AFTER = 24,          /* ms, actions: these become a continuation, the run goes on */
    CERAMBIU_CALL = 25,           /* block name; unknown or past the call depth: a step that fails */
    CERAMBIU_REPEAT = 26,         /* count byte, actions; 0 or over the repeat limit: a step that fails */
    CERAMBIU_CONDITIONAL = 27,    /* condition, actions of then, actions of else */
    CERAMBIU_PERCENT = 28         /* target, hold (0, 1, 2 the rule's), value: parts per million of full light */
};

/* A value in parts per million has a level of the bus: 0 is level 0; 1,000 to 1,000,000 the level of 1 to 254 that lies nearest on the dimming curve
 * of IEC 62386-102, the lower of two that lie equally near (500,000, half light, is level 229). Any other value, and one that cannot be evaluated, has
 * none: the step fails, and the run goes on. */

/* An After in an After, a Repeat in a Repeat, a Conditional in a Conditional, through calls too, is a step that fails. A list that has 256 steps and
 * an action left takes one more step, which fails, and ends. */

enum cerambiu_condition {
    CERAMBIU_TIME_IN_RANGE = 0,          /* bound, bound: both ends are in */
    CERAMBIU_DAY_IN = 1,                 /* days: bit d for weekday d, 0 to 127 */
    CERAMBIU_SUN_IS = 2,                 /* up mark */
    CERAMBIU_LAMP_IS = 3,                /* adapter byte, lamp id, on mark */
    CERAMBIU_LAMP_LEVEL = 4,             /* adapter byte, lamp id, cmp, value */
    CERAMBIU_LAMP_CCT = 5,               /* adapter byte, lamp id, cmp, value */
    CERAMBIU_GROUP_STATE = 6,            /* adapter byte, group id, 0 any on, 1 all off */
    CERAMBIU_INPUT_OCCUPANCY = 7,        /* adapter byte, address byte, instance byte, occupied mark */
    CERAMBIU_INPUT_LIGHT = 8,            /* adapter byte, address byte, instance byte, above mark, value */
    CERAMBIU_HCL_STATE = 9,              /* target, 0 enabled, 1 overridden */
    CERAMBIU_DEVICE_ONLINE = 10,         /* adapter byte, address byte */
    CERAMBIU_RULE_ENABLED = 11,          /* rule name */
    CERAMBIU_LAST_FIRED_OLDER_THAN = 12, /* rule name, ms; true for a rule that never fired */
    CERAMBIU_TIMER_RUNNING = 13,         /* timer */
    CERAMBIU_CONTROLLER_ACTIVE = 14,     /* no field */
    CERAMBIU_VAR_COMPARE = 15            /* name, cmp, tag 0, value; or name, cmp, tag 1, text */
};

enum cerambiu_comparison {
    CERAMBIU_EQ = 0,
    CERAMBIU_NE = 1,
    CERAMBIU_GE = 2,
    CERAMBIU_LE = 3,
    CERAMBIU_GT = 4,
    CERAMBIU_LT = 5
};

/* Values: 0 literal (low, high); 1 reading (code, three reference words); 2 offset (code, three reference words, signed delta). Unused reference
 * words are 0. */
enum cerambiu_value {
    CERAMBIU_LITERAL = 0,
    CERAMBIU_READING = 1,
    CERAMBIU_OFFSET = 2
};

enum cerambiu_reading {
    /* adapter byte, lamp id */
    CERAMBIU_READ_LAMP_LEVEL = 0,
    CERAMBIU_READ_LAMP_CCT = 1,
    CERAMBIU_READ_LAMP_IS_ON = 2,
    CERAMBIU_READ_LAMP_LAST_LEVEL = 3,
    /* adapter byte, group id */
    CERAMBIU_READ_GROUP_ANY_ON = 4,
    CERAMBIU_READ_GROUP_ALL_OFF = 5,
    CERAMBIU_READ_GROUP_MEMBER_COUNT = 6,
    /* adapter byte, address byte, instance byte */
    CERAMBIU_READ_INPUT_OCCUPIED = 7,
    CERAMBIU_READ_INPUT_LIGHT = 8,
    CERAMBIU_READ_INPUT_POSITION = 9,
    CERAMBIU_READ_INPUT_LAST_EVENT_AGE = 10,
    /* no reference; minutes of the day, but for hour, minute and weekday */
    CERAMBIU_READ_TIME_NOW = 11,
    CERAMBIU_READ_TIME_HOUR = 12,
    CERAMBIU_READ_TIME_MINUTE = 13,
    CERAMBIU_READ_TIME_WEEKDAY = 14,
    CERAMBIU_READ_SUN_RISE = 15,
    CERAMBIU_READ_SUN_SET = 16,
    CERAMBIU_READ_SUN_IS_UP = 17,
    CERAMBIU_READ_VAR = 18, /* name */
    /* no reference; always unevaluable, since ticks and runs carry no event */
    CERAMBIU_READ_EVENT_VALUE = 19,
    CERAMBIU_READ_EVENT_DEVICE = 20,
    CERAMBIU_READ_EVENT_INSTANCE = 21,
    CERAMBIU_READ_EVENT_OPTION = 22
};

enum cerambiu_bound {
    CERAMBIU_CLOCK = 0, /* hour 0 to 23, minute 0 to 59 */
    CERAMBIU_SOLAR = 1  /* 0 sunrise, 1 sunset; signed offset in ms */
};

enum cerambiu_trigger {
    CERAMBIU_TIMER_FIRES = 0, /* timer */
    CERAMBIU_EVERY = 1,       /* period in ms */
    CERAMBIU_AT_TIME = 2,     /* hour, minute, days */
    CERAMBIU_AT_SOLAR = 3,    /* 0 sunrise, 1 sunset; signed offset in ms */
    CERAMBIU_OTHER = 4        /* no field; never due here */
};

/* SNAPSHOT ---------------------------------------------------------------------------------------------------------------------------
 *
 * What the bus driver knows at the time of a tick or a run: 14 words, then the rows of five tables, one behind the other.
 *
 *   0, 1   now, low and high word: the time of the call
 *   2      wall clock mark     3  weekday, 0 to 6     4  minute of the day, 0 to 1,439     (3 and 4 are 0 without a wall clock)
 *   5      sun mark            6  sunrise minute      7  sunset minute, 0 to 1,439         (6 and 7 are 0 without a sun)
 *   8      controller active mark
 *   9      lamps, at most 256  10 groups, 64          11 devices, 64          12 inputs, 128          13 hcl rows, 64
 *
 *   lamp (9 words)     adapter, id; level mark, level; cct mark, kelvin; on; last level mark, last level
 *   group (5 words)    adapter, id; any on, all off; member count
 *   device (3 words)   adapter, address; online
 *   input (11 words)   adapter, address, instance; occupied mark, occupied; light mark, light; position mark, position; age mark, age in ms
 *   hcl row (3 words)  target; enabled, overridden
 *
 * Adapters, addresses, instances, levels and member counts are 0 to 255; ids and kelvin 0 to 65,535; light and position 0 to 1,023; on, online, any
 * on, all off, occupied, enabled, overridden 0 or 1. A value whose mark is 0 is 0. No two rows of a table have one address (the words before the
 * first semicolon).
 *
 * OUTCOMES AND EFFECTS ---------------------------------------------------------------------------------------------------------------
 *
 * An outcome is one activation or one resumption of a rule, in the order in which they ran:
 *
 *   rule name, dry mark, trigger (enum cerambiu_outcome_trigger), reason (enum cerambiu_reason), first effect, number of effects,
 *   activation number, low word, high word
 *
 * Every wet activation that reaches its steps has a number: 1 for the first behind cerambiu_new, then one more each; load, unload, enable and refused
 * calls leave the last one as it is. A resumption shows the number of its own activation, however many waits and afters lie between: so the first
 * outcome that shows a number says which press, timer or schedule is behind all others that show it. Dry runs, and conditions that could not be
 * decided, show 0. The effects of all outcomes that show one number are at most B(B - 1)/2 + 1, B the budget of the image loaded when it was given.
 *
 * The effects of all outcomes stand one behind the other in the effect store; "first effect" counts effects, not words. An effect is its kind and
 * four words, unused ones 0.
 */

/* Why a rule was activated; a resumption has the trigger of its activation. */
enum cerambiu_outcome_trigger {
    CERAMBIU_OUTCOME_HTTP_TRIGGER = 0, /* by cerambiu_run */
    CERAMBIU_OUTCOME_TIMER_FIRES = 1,
    CERAMBIU_OUTCOME_EVERY = 2,
    CERAMBIU_OUTCOME_AT_TIME = 3,
    CERAMBIU_OUTCOME_AT_SOLAR = 4
};

/* The first that was met. A run does not stop at a step that fails. */
enum cerambiu_reason {
    CERAMBIU_REASON_NONE = 0,                  /* no step failed or was left out; what is behind a wait or in an after is still to come */
    CERAMBIU_REASON_CONDITION_UNEVALUABLE = 1, /* a condition could not be decided, or a step failed: unevaluable, a 17th timer or variable, a
                                                  text over the limit, an unknown rule, a call or repeat that cannot be flattened, the
                                                  end of a list that has more than 256 steps */
    CERAMBIU_REASON_EFFECT_BUDGET = 2          /* the budget was spent with a step left, or 32 were pending and a continuation was dropped */
};

enum cerambiu_effect {
    CERAMBIU_EFFECT_LIGHT = 0,          /* target, verb, hold mark */
    CERAMBIU_EFFECT_SCENE_RECALL = 1,   /* scene, target mark, target, hold mark */
    CERAMBIU_EFFECT_SCENE_APPLY = 2,    /* scene, hold mark */
    CERAMBIU_EFFECT_HCL_RESUME = 3,     /* target */
    CERAMBIU_EFFECT_HCL_HOLD = 4,       /* target */
    CERAMBIU_EFFECT_HCL_SCHEDULE = 5,   /* schedule, enabled mark */
    CERAMBIU_EFFECT_INPUT_FEEDBACK = 6, /* adapter, address, instance, on mark */
    CERAMBIU_EFFECT_PANEL_SELECT = 7,   /* adapter, group, selected */
    CERAMBIU_EFFECT_CANCEL_HOLD = 8,    /* adapter, address, instance */
    CERAMBIU_EFFECT_CATCH_MOVEMENT = 9, /* adapter, address, instance */
    CERAMBIU_EFFECT_MQTT_PUBLISH = 10,  /* topic, payload, retain mark */
    CERAMBIU_EFFECT_LOG = 11,           /* text */
    CERAMBIU_EFFECT_LEVEL = 12          /* target, level 0 to 254, hold mark */
};

/* COUNTERS: 12, each of which stops at 2^32 - 1, then four gauges ------------------------------------------------------------------ */

enum cerambiu_counter {
    CERAMBIU_ACTIVATIONS_TOTAL = 0,
    CERAMBIU_ACTIVATIONS_DRY = 1,
    CERAMBIU_SUPPRESSED_COOLDOWN = 2,
    CERAMBIU_SUPPRESSED_DISABLED = 3,
    CERAMBIU_CONDITIONS_REJECTED = 4,
    CERAMBIU_PARTIAL_OUTCOMES = 5,
    CERAMBIU_EFFECTS_EMITTED = 6,
    CERAMBIU_ACTIONS_FAILED = 7,
    CERAMBIU_CONTINUATIONS_SCHEDULED = 8,
    CERAMBIU_CONTINUATIONS_FIRED = 9,
    CERAMBIU_CONTINUATIONS_DROPPED = 10,
    CERAMBIU_TICKS_TIME_UNSYNCED = 11,
    CERAMBIU_PENDING_NOW = 12,
    CERAMBIU_TIMERS_NOW = 13,
    CERAMBIU_RULES_NOW = 14,
    CERAMBIU_VARIABLES_NOW = 15
};

/* The first value of the next start. */
enum cerambiu_next_start_mark {
    CERAMBIU_START_NONE = 0,          /* no rule that is on has a wall trigger that will be due */
    CERAMBIU_START_AHEAD = 1,         /* minutes, 1 to 10,080, and the rule's name follow; else they are 0 */
    CERAMBIU_START_CLOCK_UNKNOWN = 2  /* the snapshot has no wall clock */
};

/* The first word of a start of a readback. */
enum cerambiu_solar_start_mark {
    CERAMBIU_SOLAR_START = 0, /* minute of the day, 0 to 1,439, and the signed remainder follow; else they are 0 */
    CERAMBIU_SOLAR_NO_SUN = 1 /* the snapshot has no sun */
};

/* CALLS ------------------------------------------------------------------------------------------------------------------------------ */

/* Makes a store new at this time, whatever its words were: no set, no memory. Refusal: 1. */
uint32_t cerambiu_new(uint32_t *store, size_t store_words, uint64_t time);

/* Loads the rules of an image. All continuations go; rule bits are those of the image; last activations, cycle positions and Every slots of rules that
 * stay by name (slots: by place and period too) are kept, and so are variables, timers, counters and the last activation number.
 * Refusals: 1, 2, 10 to 17. */
uint32_t cerambiu_load(uint32_t *store, size_t store_words, uint64_t time, const uint32_t *image, size_t image_words);

/* Takes the rules out. Variables, timers, counters and the last activation number stay. Refusals: 1, 2. */
uint32_t cerambiu_unload(uint32_t *store, size_t store_words, uint64_t time);

/* Switches a rule on or off; switched off, its continuations go. Answer: 1, or 0 where no loaded rule has this name. Refusals: 1, 2. */
uint32_t cerambiu_enable(uint32_t *store, size_t store_words, uint32_t rule, bool on, uint32_t *answer, size_t answer_words);

/* Lets the time of the snapshot come: continuations, timers, Every slots, wall schedules that are due by then, in this order. Without a set only the
 * time is taken. Answer: number of outcomes, number of effects. Refusals: 1, 2, 20 to 22, 30 to 32. */
uint32_t cerambiu_tick(uint32_t *store, size_t store_words, const uint32_t *snapshot, size_t snapshot_words, uint32_t *outcomes,
                       size_t outcome_words, uint32_t *effects, size_t effect_words, uint32_t *answer, size_t answer_words);

/* Runs a rule by hand, past its cooldown; its conditions are asked. A dry run tries the steps on the state as it is: all at once, past waits, the
 * bodies of afters at the end, from one budget. So its effects are not those of a wet run (examples/dry.script). It asks no rule bit and changes
 * nothing but counters and the last time. A rule that is not loaded, is off (wet), or whose conditions are not met gives no outcome. Answer and
 * refusals: as tick. */
uint32_t cerambiu_run(uint32_t *store, size_t store_words, uint32_t rule, bool dry, const uint32_t *snapshot, size_t snapshot_words,
                      uint32_t *outcomes, size_t outcome_words, uint32_t *effects, size_t effect_words, uint32_t *answer, size_t answer_words);

/* The earliest time at which something is due: a continuation, a timer, an Every slot; with a wall trigger of a rule that is on, a second after the
 * last time at the latest. It may lie in the past, and stay there (examples/deadline.script): sleep for a tick's length at the least. Answer: mark,
 * low word, high word. Refusals: 1, 2. */
uint32_t cerambiu_next_deadline(const uint32_t *store, size_t store_words, uint32_t *answer, size_t answer_words);

/* Answer: the 16 words of enum cerambiu_counter. Refusals: 1, 2. */
uint32_t cerambiu_counters(const uint32_t *store, size_t store_words, uint32_t *answer, size_t answer_words);

/* What starts next by the wall clock: the fewest minutes ahead of the snapshot's minute, 1 to 10,080, at which a rule that is on has an AtTime or
 * AtSolar trigger due, and the lowest name of the rules due then. The present minute is not ahead: what was due in it is due again in a day or a week.
 * The sun's minutes count as the same on every day; without a sun an AtSolar trigger has no start. Cooldowns, conditions, the minute of the last tick
 * and its time are not asked, nor are timers, Every and what waits: cerambiu_next_deadline has these. Nothing changes. Answer: mark (enum
 * cerambiu_next_start_mark), minutes, rule; the last two are 0 where there is no start. Refusals: 1, 2, 20 to 22. */
uint32_t cerambiu_next_start(const uint32_t *store, size_t store_words, const uint32_t *snapshot, size_t snapshot_words, uint32_t *answer,
                             size_t answer_words);

/* Reads back when the AtSolar triggers of a rule start, in the world of a snapshot: for each of them, in the order of the rule's triggers, CERAMBIU_SOLAR_START_WORDS
 * words in `readback`: the mark (enum cerambiu_solar_start_mark), the minute of the day in which the rule starts, and the milliseconds of the trigger's
 * offset that make no whole minute, a signed word with the offset's sign. Minutes of the offset times 60,000 and these milliseconds are the offset. With sunrise in
 * minute 10 an offset of -90,000 ms is minute 9 and -30,000 ms: 00:08:30. The rule starts by the minute alone. Other triggers are passed over; a rule that
 * is off has its triggers, and one that is not loaded has none. No wall clock is needed. Words behind the starts are 0, and all of them on a refusal. Nothing changes. 3
 * words for each trigger of the rule are always enough. Answer: the number of starts. Refusals: 1, 2, 20 to 22, for a rule that is not loaded too; then 30,
 * where the words lent, by 3 and rounded down, are fewer than the starts. */
uint32_t cerambiu_readback(const uint32_t *store, size_t store_words, uint32_t rule, const uint32_t *snapshot, size_t snapshot_words, uint32_t *readback,
                           size_t readback_words, uint32_t *answer, size_t answer_words);

/* The list to be sent on the bus for a tick's effects, into `list`: the shortest that leaves every lamp the same. A level (kind 12) is left out
 * where a later level has the same target and only levels and Logs (11) stand between; everything else is copied in its order. Each kind 0 to
 * 10 cuts the list into stretches, whatever it is about; in each stretch the same targets are set as before, each with the same last level and hold.
 *
 * Hand over the first 5 * count words of the effect store, with the count of the tick's or run's answer, not the whole store: zeros are effects
 * of kind 0. The list runs across outcomes; an outcome's "first effect" still counts in the effects as the tick gave them. No store is read; `effects` stays
 * as it is. 5 * count words of list are always enough. Words of the list behind the kept effects are 0, and all of them on a refusal; nothing
 * but kinds is checked. Answer: the number of effects kept, low word and high word. Refusals: 60, 61. Time: effects times different targets. */
uint32_t cerambiu_telegrams(const uint32_t *effects, size_t effect_words, uint32_t *list, size_t list_words, uint32_t *answer,
                            size_t answer_words);

/* Reads the five time fields of one line of a crontab, without its newline, into AtTime triggers for an image: 2, hour, minute, days, four 0. It takes
 * no store of a house. `sunday` is the weekday that Sunday has here, 0 to 6. The fields are minute 0 to 59, hour 0 to 23, day of month and month, which
 * must be `*`, and weekday 0 to 6, where 0 is Sunday. A field is `*` alone, or numbers and ranges (`1-5`) with commas between; names, steps (`*` with
 * a slash) and 7 for Sunday are not of the POSIX form. Spaces or tabs part the fields, none stands before the first; what follows the fifth behind a
 * blank is not read, whatever its bytes. The triggers come by hour, then minute, each pair once, all with the same days: some trigger is due at a
 * minute of the week exactly if the line matches it. Words behind the triggers are 0, and all of them on a refusal. Answer: number of triggers.
 * Refusals: 50 to 52. Time: some 90 readings of the line, and the words of the answer. */
uint32_t cerambiu_crontab(const uint8_t *line, size_t line_bytes, uint32_t sunday, uint32_t *triggers, size_t trigger_words, uint32_t *answer,
                          size_t answer_words);

/* How much a tick or a run can give at the most while this image is loaded, in any store and with any snapshot. Asks no store. Answer: outcomes, effects. Who
 * lends CERAMBIU_OUTCOME_WORDS and CERAMBIU_EFFECT_WORDS times as many words, or more, to every tick and run is never refused with 30; a unit that has less does
 * not load the image. Refusals: 10 to 17, as load. */
uint32_t cerambiu_room(const uint32_t *image, size_t image_words, uint32_t *answer, size_t answer_words);

/* List k of all lists of up to three of a set of actions, for a bench that runs every small case. It takes no store of a house. `actions` are one to
 * eight action records, 8 words each, as in an image; `values` and `pool` are the tables that they lead to. n records give 1 + n + n * n + n * n * n
 * lists, numbered from 0: the empty one, then those of one, two and three records; of one length the first place weighs most. With eight records list
 * 9 is (0, 0), 10 is (0, 1), 17 is (1, 0) and 584 is (7, 7, 7). Every number below the count has a list that load accepts as the actions of one rule,
 * with the limits 256, 8, 255, 255, 255 and these values and this pool; a record that it would refuse is 71 whichever list is asked for, and so are
 * values or a pool that it would refuse. Answer: length, three places. Refusals: 70 to 72. Time: the words of the set, once. */
uint32_t cerambiu_short_list(uint32_t k, const uint32_t *actions, size_t action_words, const uint32_t *values, size_t value_words, const uint32_t *pool,
                             size_t pool_words, uint32_t *answer, size_t answer_words);

/* Writes an image that load accepts anew, into `lent`: two images get equal words exactly if they describe the same rules and blocks with the same
 * limits, wherever their records lie. Rules and blocks keep their order, blocks that nobody calls too. Each list is written whole, then record by
 * record what it mentions, each with all inside it before the next; once for each mention, so that nothing is shared; an empty list has first 0;
 * records that nothing mentions are left out. Load accepts what is written, the calls answer with it as with the first image, and written anew it
 * stays as it is. No store is read; `image` stays as it is.
 *
 * 4,096 words are always enough. Words behind the new image are 0, and all of them on a refusal. Since nothing is shared the new image can be longer
 * than the first: where it would have more than 4,096 words it is 40, in any room, and at once, however many it would have. Answer: the number of
 * words. Refusals: 10 to 17 as load, 40, 41. */
uint32_t cerambiu_rewrite(const uint32_t *image, size_t image_words, uint32_t *lent, size_t lent_words, uint32_t *answer, size_t answer_words);

#ifdef __cplusplus
}
#endif

#endif
