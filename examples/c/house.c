/*
 * A house: the host loop that loses no day over power cuts, clock changes, an empty clock battery, damaged memory and a swapped unit. site.h is what
 * it asks of the hardware; site.c simulates that and lets 30 days pass, twice. docs/FOR-FIRMWARE.md, "Time and power", explains each point.
 *
 *   cc -std=c99 -Iinclude examples/c/house.c examples/c/site.c examples/c/keep.c target/staticlib/libcerambiu.a -o house && ./house
 */
#include "site.h"

#include <string.h>

#include "cerambiu.h"

#define COUNT(list) (sizeof(list) / sizeof((list)[0]))
enum { EVENING = 1, INSPECTION = RULE_OF_THE_BUTTON, MORNING, NIGHT_FEED, WATER }; /* rules, in the byte order of their names */
enum { SET_BACK = 120, MS = 60000 };

static const uint32_t image[] = {
    EVENING, 1, 0, 0, 0, 1, 0, 0, 0, 1, 0, 0, 0, 0, 0, 0,    /* half an hour after sunset: off */
    INSPECTION, 1, 0, 0, 0, 0, 0, 0, 1, 2, 0, 0, 0, 0, 0, 0, /* by hand: the lamp for ten minutes */
    MORNING, 1, 0, 0, 1, 1, 0, 0, 3, 3, 0, 0, 0, 0, 0, 0,    /* 05:00: dimmed, a quarter of an hour later full */
    NIGHT_FEED, 1, 0, 0, 2, 1, 0, 0, 6, 3, 0, 0, 0, 0, 0, 0, /* 02:00: dimmed for an hour */
    WATER, 1, 0, 0, 3, 1, 0, 0, 1, 2, 0, 0, 0, 0, 0, 0,      /* 02:30: the lamp for ten minutes, as by hand */
    CERAMBIU_AT_SOLAR, 1, 30 * MS, 0, 0, 0, 0, 0, CERAMBIU_AT_TIME, 5, 0, 127, 0, 0, 0, 0, CERAMBIU_AT_TIME, 2, 0, 127, 0, 0, 0, 0,
    CERAMBIU_AT_TIME, 2, 30, 127, 0, 0, 0, 0,
    CERAMBIU_LIGHT, HOUSE, 2, 0, OFF, 0, 0, 0, CERAMBIU_LIGHT, LAMP, 2, 0, FULL, 0, 0, 0, CERAMBIU_AFTER, 10 * MS, 9, 1, 0, 0, 0, 0,
    CERAMBIU_LIGHT, HOUSE, 2, 0, DIMMED, 0, 0, 0, CERAMBIU_WAIT, 15 * MS, 0, 0, 0, 0, 0, 0, CERAMBIU_LIGHT, HOUSE, 2, 0, FULL, 0, 0, 0,
    CERAMBIU_LIGHT, HOUSE, 2, 0, DIMMED, 0, 0, 0, CERAMBIU_WAIT, 60 * MS, 0, 0, 0, 0, 0, 0, CERAMBIU_LIGHT, HOUSE, 2, 0, OFF, 0, 0, 0,
    CERAMBIU_LIGHT, LAMP, 2, 0, OFF, 0, 0, 0,
    16, 0, 1, 0, 0, 0, 80, 80, 112, 112, 192, 192, 192,
};

/* THE HOST. Kept are the store, and behind it the time and the minute of the last tick, and what each light was last told. */
enum { NOW = CERAMBIU_STORE_WORDS, MINUTE = NOW + 2, LIGHTS };
/* The room that the unit has, and lends to every tick and run: what these rules need (cerambiu_room), and some more. */
enum { MOST_OUTCOMES = 64, MOST_EFFECTS = 512 };
static uint32_t kept[HOUSE_WORDS], outcomes[MOST_OUTCOMES * CERAMBIU_OUTCOME_WORDS], effects[MOST_EFFECTS * CERAMBIU_EFFECT_WORDS];
static uint64_t now_at_boot;
static uint32_t minute_at_boot, told[TARGETS];
static bool to_save;

static uint64_t last_now(void)
{
    return kept[NOW] | (uint64_t)kept[NOW + 1] << 32;
}

/* A tick, or a run of a rule, at this time; with the wall clock at this minute, or without one. */
static void call(uint32_t rule, uint64_t now, bool wall, uint32_t at, bool late)
{
    uint32_t snapshot[CERAMBIU_SNAPSHOT_HEAD_WORDS] = {(uint32_t)now, (uint32_t)(now >> 32), 0, 0, 0, 0, 0, 0, 1}, answer[CERAMBIU_TICK_VALUES];
    if (wall) {
        const uint32_t clock_and_sun[] = {1, at / DAY % 7, at % DAY, 1, 420, site_sunset(at)};
        memcpy(snapshot + 2, clock_and_sun, sizeof clock_and_sun);
        kept[MINUTE] = at;
    }
    kept[NOW] = snapshot[0];
    kept[NOW + 1] = snapshot[1];
    const size_t words = CERAMBIU_STORE_WORDS;
    uint32_t refusal = rule == 0 ? cerambiu_tick(kept, words, snapshot, COUNT(snapshot), outcomes, COUNT(outcomes), effects, COUNT(effects), answer,
                                                 COUNT(answer))
                                 : cerambiu_run(kept, words, rule, false, snapshot, COUNT(snapshot), outcomes, COUNT(outcomes), effects,
                                                COUNT(effects), answer, COUNT(answer));
    if (refusal != CERAMBIU_OK) {
        site_fault("a call was refused");
    }
    to_save = to_save || answer[0] > 0;
    for (uint32_t i = 0; i < answer[1]; i++) { /* the effects of all outcomes, in order; this house has lights alone */
        const uint32_t *effect = effects + i * CERAMBIU_EFFECT_WORDS;
        if (effect[0] == CERAMBIU_EFFECT_LIGHT && effect[1] < TARGETS) {
            kept[LIGHTS + effect[1]] = effect[2];
        }
        if (late) {
            site_list(at, effect);
        }
    }
}

/* Lets the wall clock come to this minute, with a tick for each minute since the last tick: so no rule and no wait between is lost, be it a moment,
 * a blackout, or a clock set forward. Where the clock went back up to two hours, the last minute is told until the clock has passed it, and nothing
 * starts twice. Where it went back further, or a day and more has passed, the last day is gone through. A minute has the time that it had, or the
 * least there is where it never was. */
static void catch_up(uint64_t now, uint32_t at)
{
    uint32_t from = kept[MINUTE], minute = from + 1;
    if (at <= from && from - at <= SET_BACK) {
        minute = at = from;
    } else if (at < from || at - from > DAY) {
        minute = at > DAY ? at - DAY : 0;
    }
    uint64_t least = last_now() + MS < now ? last_now() + MS : now;
    for (; minute <= at; minute++) {
        uint64_t back = (uint64_t)(at - minute) * MS;
        call(0, now > least + back ? now - back : least, true, minute, minute < at);
    }
}

/* Whether the unit can lend what the rules may need. If not they are not loaded: so no call is ever refused for lack of room. */
static bool has_room(void)
{
    uint32_t room[CERAMBIU_ROOM_VALUES];
    return cerambiu_room(image, COUNT(image), room, COUNT(room)) == CERAMBIU_OK && room[0] <= MOST_OUTCOMES && room[1] <= MOST_EFFECTS;
}

/* Restores, and loads only where there is nothing to restore: then as if a day ago, so that the first turn goes through the last day and the lights
 * are right at once. */
void house_boot(void)
{
    int slots = keep_restore(&site_memory, kept, HOUSE_WORDS);
    if (slots == 0 || cerambiu_counters(kept, CERAMBIU_STORE_WORDS, NULL, 0) != CERAMBIU_OK) {
        uint64_t then = site_clock_right() ? site_clock_ms() - (uint64_t)DAY * MS : 0;
        memset(kept, 0, sizeof kept);
        kept[NOW] = (uint32_t)then;
        kept[NOW + 1] = (uint32_t)(then >> 32);
        if (!has_room() || cerambiu_new(kept, CERAMBIU_STORE_WORDS, then) || cerambiu_load(kept, CERAMBIU_STORE_WORDS, then, image, COUNT(image))) {
            site_fault("the rules were refused");
        }
    }
    now_at_boot = site_clock_right() ? site_clock_ms() : last_now(); /* never back to 0 */
    minute_at_boot = kept[MINUTE];
    memset(told, 0xff, sizeof told); /* every light is told again: effects come once */
    to_save = true;                  /* both slots are written again */
}

/* Once a minute, and when a button is pressed. A clock in doubt goes on from the last minute. */
void house_turn(uint32_t pressed)
{
    uint64_t now = now_at_boot + site_uptime();
    uint32_t at = site_clock_right() ? site_clock_minute() : minute_at_boot + (uint32_t)(site_uptime() / MS);
    catch_up(now, at);
    if (pressed != 0) {
        call(pressed, now, true, kept[MINUTE], false);
    }
    for (uint32_t i = 0; i < TARGETS; i++) {
        if (told[i] != kept[LIGHTS + i]) {
            site_tell(i, told[i] = kept[LIGHTS + i]);
        }
    }
    if (to_save || at % 60 == 0) { /* not after idle ticks: flash wears out */
        if (keep_save(&site_memory, kept, HOUSE_WORDS) < 2) {
            site_fault("not saved twice");
        }
        to_save = false;
    }
}
