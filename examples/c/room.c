/*
 * Lend, or do not load: a unit has room for so many outcomes and effects, asks of each image what its set can need, and loads only what it has room for. Then no
 * tick and no run is refused with 30. And the largest answer there is: an image of 813 words whose fullest tick gives exactly what it was told, and is refused with
 * one record less.
 *
 *   .ci/build
 *   cc -std=c99 -Iinclude examples/c/room.c target/staticlib/libcerambiu.a -o room && ./room
 *
 * It prints examples/c/room.expected.
 */
#include <inttypes.h>
#include <stdio.h>
#include <string.h>

#include "cerambiu.h"

#define COUNT(words) (sizeof(words) / sizeof((words)[0]))

static uint32_t store[CERAMBIU_STORE_WORDS], kept[CERAMBIU_STORE_WORDS], image[CERAMBIU_IMAGE_MAX_WORDS];
static size_t image_words;
static uint32_t outcomes[CERAMBIU_TICK_MAX_OUTCOMES * CERAMBIU_OUTCOME_WORDS], effects[CERAMBIU_TICK_MAX_EFFECTS * CERAMBIU_EFFECT_WORDS];

/* THE UNIT'S ROOM: what it lends to every tick and run ------------------------------------------------------------------------------------- */
enum { UNIT_OUTCOMES = 64, UNIT_EFFECTS = 512 };

/* Loads an image if the unit has the room that its set can need. */
static void lend_or_do_not_load(const char *name)
{
    uint32_t room[CERAMBIU_ROOM_VALUES];
    uint32_t refusal = cerambiu_room(image, image_words, room, COUNT(room));
    if (refusal != CERAMBIU_OK) {
        printf("%s: %zu words, refused %" PRIu32 "\n", name, image_words, refusal);
        return;
    }
    printf("%s: %zu words, needs room for %" PRIu32 " outcomes and %" PRIu32 " effects", name, image_words, room[0], room[1]);
    if (room[0] > UNIT_OUTCOMES || room[1] > UNIT_EFFECTS) {
        printf(": not loaded\n");
    } else {
        printf(": %s\n", cerambiu_load(store, COUNT(store), 0, image, image_words) == CERAMBIU_OK ? "loaded" : "refused");
    }
}

/* IMAGES ----------------------------------------------------------------------------------------------------------------------------------- */
static void put(const uint32_t *words, size_t count)
{
    memcpy(image + image_words, words, count * sizeof(uint32_t));
    image_words += count;
}

static void record(uint32_t kind, uint32_t a, uint32_t b, uint32_t c, uint32_t d)
{
    const uint32_t words[8] = { kind, a, b, c, d };
    put(words, 8);
}

static void rule(uint32_t name, uint32_t trigger, uint32_t triggers, uint32_t action, uint32_t actions)
{
    const uint32_t words[16] = { name, 1, 0, 0, trigger, triggers, 0, 0, action, actions };
    put(words, 16);
}

/* The tables of rules, triggers and actions; the others are empty. */
static void trailer(uint32_t budget, uint32_t triggers, uint32_t actions)
{
    const uint32_t end = (uint32_t)image_words;
    const uint32_t words[13] = { budget, 0, 255, 0, 0, 0, triggers, triggers, actions, actions, end, end, end };
    put(words, 13);
}

/* The layer house of examples/layer-house.rules: 05:00 dimmed, full a quarter of an hour later; half an hour after sunset dimmed, then off, and a log. */
static void layer_house(void)
{
    image_words = 0;
    rule(1, 0, 1, 0, 4);
    rule(2, 1, 1, 4, 3);
    uint32_t triggers = (uint32_t)image_words;
    record(CERAMBIU_AT_SOLAR, 1, 1800000, 0, 0);
    record(CERAMBIU_AT_TIME, 5, 0, 127, 0);
    uint32_t actions = (uint32_t)image_words;
    record(CERAMBIU_LIGHT, 1, 2, 0, 10);
    record(CERAMBIU_WAIT, 900000, 0, 0, 0);
    record(CERAMBIU_LIGHT, 1, 2, 0, 12);
    record(CERAMBIU_LOG, 1, 0, 0, 0);
    record(CERAMBIU_LIGHT, 1, 2, 0, 10);
    record(CERAMBIU_WAIT, 900000, 0, 0, 0);
    record(CERAMBIU_LIGHT, 1, 2, 0, 11);
    trailer(32, triggers, actions);
}

/* Eight rules of 256 Logs, each by 16 timers and a minute of the day, the first by 64 Every of period 0 too. */
static void most_effects(void)
{
    image_words = 0;
    for (uint32_t i = 0; i < 8; i++) {
        rule(10 + i, i == 0 ? 0 : 64, i == 0 ? 81 : 17, 0, 2);
    }
    uint32_t triggers = (uint32_t)image_words;
    for (uint32_t i = 0; i < 64; i++) {
        record(CERAMBIU_EVERY, 0, 0, 0, 0);
    }
    for (uint32_t timer = 1; timer <= 16; timer++) {
        record(CERAMBIU_TIMER_FIRES, timer, 0, 0, 0);
    }
    record(CERAMBIU_AT_TIME, 12, 0, 127, 0);
    uint32_t actions = (uint32_t)image_words;
    record(CERAMBIU_LOG, 1, 0, 0, 0);
    record(CERAMBIU_REPEAT, 255, 2, 1, 0);
    record(CERAMBIU_LOG, 2, 0, 0, 0);
    trailer(256, triggers, actions);
}

/* A store that keeps every store rule and has all that can be due at once (docs/STORE.md has the places): 16 timers, 32 continuations at the start of rule 10 with
 * the largest budget that one may have, and the minute before noon. No list of calls leads to it: what was told holds of it too. */
static void all_due(void)
{
    store[12870] = 16;
    for (uint32_t i = 0; i < 16; i++) {
        store[12871 + 3 * i] = i + 1;
    }
    store[13240] = 32;
    for (uint32_t i = 0; i < 32; i++) {
        uint32_t *row = store + 13241 + 15 * i;
        row[0] = i + 1; /* its sequence number */
        row[4] = 10;
        row[10] = 255;
        row[12] = 1; /* the number of its activation */
    }
    store[13721] = 1;
    store[13722] = 2 * 1440 + 719;
    store[13723] = 33;
    store[13725] = 1;
}

/* A tick at noon with so much room. */
static void fullest_tick(size_t most_outcomes, size_t most_effects_)
{
    static const uint32_t snapshot[CERAMBIU_SNAPSHOT_HEAD_WORDS] = { 0, 0, 1, 2, 720, 0, 0, 0, 1 };
    uint32_t answer[CERAMBIU_TICK_VALUES];
    memcpy(store, kept, sizeof(store));
    uint32_t refusal = cerambiu_tick(store, COUNT(store), snapshot, COUNT(snapshot), outcomes, most_outcomes * CERAMBIU_OUTCOME_WORDS, effects,
                                     most_effects_ * CERAMBIU_EFFECT_WORDS, answer, COUNT(answer));
    printf("room for %zu outcomes and %zu effects: ", most_outcomes, most_effects_);
    if (refusal != CERAMBIU_OK) {
        printf("refused %" PRIu32 "\n", refusal);
    } else {
        printf("%" PRIu32 " outcomes, %" PRIu32 " effects\n", answer[0], answer[1]);
    }
}

int main(void)
{
    uint32_t room[CERAMBIU_ROOM_VALUES];
    if (cerambiu_new(store, COUNT(store), 0) != CERAMBIU_OK) {
        return 1;
    }
    printf("the unit has room for %d outcomes and %d effects\n", UNIT_OUTCOMES, UNIT_EFFECTS);
    layer_house();
    lend_or_do_not_load("layer house");
    most_effects();
    lend_or_do_not_load("8 rules of 256 Logs");
    image_words--;
    lend_or_do_not_load("the same, cut short");
    most_effects();
    if (cerambiu_load(store, COUNT(store), 0, image, image_words) || cerambiu_room(image, image_words, room, COUNT(room))) {
        return 1;
    }
    all_due();
    memcpy(kept, store, sizeof(store));
    fullest_tick(room[0], room[1]);
    fullest_tick(room[0] - 1, room[1]);
    fullest_tick(room[0], room[1] - 1);
    return 0;
}
