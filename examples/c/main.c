/*
 * A house in C: a new store, the rule of document 01's example, a run, two ticks; then three refusals, one for each who can cause one;
 * then what is sent on the bus for three effects, two lines of a crontab, what starts next, and an image written anew.
 *
 *   .ci/build
 *   cc -std=c99 -Iinclude examples/c/main.c target/staticlib/libcerambiu.a -o house && ./house
 *
 * It prints examples/c/expected.
 */
#include <inttypes.h>
#include <stdio.h>
#include <string.h>

#include "cerambiu.h"

#define COUNT(words) (sizeof(words) / sizeof((words)[0]))
#define OUTCOMES 4
#define EFFECTS 16

/* All memory of the house. */
static uint32_t store[CERAMBIU_STORE_WORDS];
static uint32_t outcomes[OUTCOMES * CERAMBIU_OUTCOME_WORDS];
static uint32_t effects[EFFECTS * CERAMBIU_EFFECT_WORDS];

/* Rule 5 logs text 7, waits a second, logs text 9. */
static const uint32_t image[] = {
    /* rule: name, enabled, hold, cooldown; triggers, conditions, actions, each first and count */
    5, 1, 0, 0, 0, 0, 0, 0, 0, 3, 0, 0, 0, 0, 0, 0,
    /* actions */
    CERAMBIU_LOG, 7, 0, 0, 0, 0, 0, 0,
    CERAMBIU_WAIT, 1000, 0, 0, 0, 0, 0, 0,
    CERAMBIU_LOG, 9, 0, 0, 0, 0, 0, 0,
    /* limits: budget, call depth, repeat, text, group; then the first word of each table */
    8, 0, 1, 0, 0, 0, 16, 16, 16, 16, 40, 40, 40,
};

/* The time, no wall clock, no sun, controller active, no rows. */
static void look(uint32_t snapshot[CERAMBIU_SNAPSHOT_HEAD_WORDS], uint64_t now)
{
    for (size_t i = 0; i < CERAMBIU_SNAPSHOT_HEAD_WORDS; i++) {
        snapshot[i] = 0;
    }
    snapshot[0] = (uint32_t)now;
    snapshot[1] = (uint32_t)(now >> 32);
    snapshot[8] = 1;
}

static void print_effects(const uint32_t *first, uint32_t count)
{
    for (uint32_t i = 0; i < count; i++) {
        const uint32_t *effect = first + i * CERAMBIU_EFFECT_WORDS;
        printf("effect %" PRIu32 " %" PRIu32 " %" PRIu32 " %" PRIu32 " %" PRIu32 "\n", effect[0], effect[1], effect[2], effect[3], effect[4]);
    }
}

static void print_outcome(const uint32_t *outcome)
{
    printf("rule %" PRIu32 " %" PRIu32 " %" PRIu32 " %" PRIu32 " %" PRIu32 "\n", outcome[0], outcome[1], outcome[2], outcome[3], outcome[5]);
    print_effects(effects + outcome[4] * CERAMBIU_EFFECT_WORDS, outcome[5]);
}

/* What a tick or a run answered. */
static void print_answer(const char *call, uint64_t now, uint32_t refusal, const uint32_t answer[CERAMBIU_TICK_VALUES])
{
    if (refusal != CERAMBIU_OK) {
        printf("%s refused %" PRIu32 "\n", call, refusal);
        return;
    }
    printf("%s %" PRIu64 " %" PRIu32 "\n", call, now, answer[0]);
    for (uint32_t i = 0; i < answer[0]; i++) {
        print_outcome(outcomes + i * CERAMBIU_OUTCOME_WORDS);
    }
}

static void tick(uint64_t now)
{
    uint32_t snapshot[CERAMBIU_SNAPSHOT_HEAD_WORDS], answer[CERAMBIU_TICK_VALUES];
    look(snapshot, now);
    uint32_t refusal =
        cerambiu_tick(store, COUNT(store), snapshot, COUNT(snapshot), outcomes, COUNT(outcomes), effects, COUNT(effects), answer, COUNT(answer));
    print_answer("tick", now, refusal, answer);
}

/* A run by hand, with so many words for its outcomes. */
static void run(uint64_t now, uint32_t rule, bool dry, size_t outcome_words)
{
    uint32_t snapshot[CERAMBIU_SNAPSHOT_HEAD_WORDS], answer[CERAMBIU_RUN_VALUES];
    look(snapshot, now);
    uint32_t refusal = cerambiu_run(store, COUNT(store), rule, dry, snapshot, COUNT(snapshot), outcomes, outcome_words, effects, COUNT(effects),
                                    answer, COUNT(answer));
    print_answer("run", now, refusal, answer);
}

/* Two levels for target 1 with a Log between them: the first need not be sent. */
static void send(void)
{
    static const uint32_t full[] = { CERAMBIU_EFFECT_LEVEL, 1, 10, 0, 0, CERAMBIU_EFFECT_LOG, 7, 0, 0, 0, CERAMBIU_EFFECT_LEVEL, 1, 20, 0, 0 };
    uint32_t list[COUNT(full)], kept[CERAMBIU_TELEGRAMS_VALUES];
    uint32_t refusal = cerambiu_telegrams(full, COUNT(full), list, COUNT(list), kept, COUNT(kept));
    if (refusal != CERAMBIU_OK) {
        printf("telegrams refused %" PRIu32 "\n", refusal);
        return;
    }
    printf("telegrams %" PRIu32 "\n", kept[0]);
    print_effects(list, kept[0]);
}

/* The triggers of a line of a crontab, where Sunday is weekday 6. */
static void programme(const char *line)
{
    static uint32_t triggers[CERAMBIU_CRONTAB_MAX_TRIGGERS * CERAMBIU_TRIGGER_WORDS];
    uint32_t answer[CERAMBIU_CRONTAB_VALUES];
    uint32_t refusal = cerambiu_crontab((const uint8_t *)line, strlen(line), 6, triggers, COUNT(triggers), answer, COUNT(answer));
    if (refusal != CERAMBIU_OK) {
        printf("crontab refused %" PRIu32 "\n", refusal);
        return;
    }
    printf("crontab %" PRIu32 "\n", answer[0]);
    for (uint32_t i = 0; i < answer[0]; i++) {
        const uint32_t *trigger = triggers + i * CERAMBIU_TRIGGER_WORDS;
        printf("trigger %" PRIu32 " %" PRIu32 " %" PRIu32 "\n", trigger[1], trigger[2], trigger[3]);
    }
}

/* What starts next, in the world of a snapshot. */
static void print_next_start(const uint32_t snapshot[CERAMBIU_SNAPSHOT_HEAD_WORDS])
{
    uint32_t start[CERAMBIU_NEXT_START_VALUES];
    uint32_t refusal = cerambiu_next_start(store, COUNT(store), snapshot, CERAMBIU_SNAPSHOT_HEAD_WORDS, start, COUNT(start));
    if (refusal != CERAMBIU_OK) {
        printf("start refused %" PRIu32 "\n", refusal);
    } else if (start[0] == CERAMBIU_START_AHEAD) {
        printf("start %" PRIu32 " %" PRIu32 "\n", start[1], start[2]);
    } else {
        printf("start %s\n", start[0] == CERAMBIU_START_NONE ? "none" : "unknown");
    }
}

/* The panel: rule 12 at 6:00 on every day, asked at 5:17, without a clock, and switched off. */
static void panel(void)
{
    static const uint32_t daily[] = {
        12, 1, 0, 0, 0, 1, 0, 0, 0, 0, 0, 0, 0, 0, 0, 0, CERAMBIU_AT_TIME, 6, 0, 127, 0, 0, 0, 0, 8, 0, 1, 0, 0, 0, 16, 16, 24, 24, 24, 24, 24,
    };
    uint32_t snapshot[CERAMBIU_SNAPSHOT_HEAD_WORDS];
    look(snapshot, 2000);
    printf("load %" PRIu32 "\n", cerambiu_load(store, COUNT(store), 2000, daily, COUNT(daily)));
    print_next_start(snapshot);
    snapshot[2] = 1;
    snapshot[4] = 5 * 60 + 17;
    print_next_start(snapshot);
    printf("enable %" PRIu32 "\n", cerambiu_enable(store, COUNT(store), 12, false, NULL, 0));
    print_next_start(snapshot);
}

/* List k of all short lists of three actions: a Log, a Wait and a Log. */
static void short_list(uint32_t k)
{
    static const uint32_t actions[] = { 21, 7, 0, 0, 0, 0, 0, 0, 23, 1000, 0, 0, 0, 0, 0, 0, 21, 9, 0, 0, 0, 0, 0, 0 };
    uint32_t answer[CERAMBIU_SHORT_LIST_VALUES];
    uint32_t refusal = cerambiu_short_list(k, actions, COUNT(actions), NULL, 0, NULL, 0, answer, COUNT(answer));
    if (refusal != CERAMBIU_OK) {
        printf("shortlist refused %" PRIu32 "\n", refusal);
        return;
    }
    printf("shortlist %" PRIu32 " %" PRIu32 " %" PRIu32 " %" PRIu32 "\n", answer[0], answer[1], answer[2], answer[3]);
}

/* Support: the rules of the example behind two Logs that nothing mentions, as another panel may save them. Written anew they are the example's words. */
static void compare(void)
{
    static const uint32_t other[] = {
        5, 1, 0, 0, 0, 0, 0, 0, 2, 3, 0, 0, 0, 0, 0, 0,
        CERAMBIU_LOG, 1, 0, 0, 0, 0, 0, 0,
        CERAMBIU_LOG, 2, 0, 0, 0, 0, 0, 0,
        CERAMBIU_LOG, 7, 0, 0, 0, 0, 0, 0,
        CERAMBIU_WAIT, 1000, 0, 0, 0, 0, 0, 0,
        CERAMBIU_LOG, 9, 0, 0, 0, 0, 0, 0,
        8, 0, 1, 0, 0, 0, 16, 16, 16, 16, 56, 56, 56,
    };
    static uint32_t written[CERAMBIU_IMAGE_MAX_WORDS];
    uint32_t count[CERAMBIU_REWRITE_VALUES];
    uint32_t refusal = cerambiu_rewrite(other, COUNT(other), written, COUNT(written), count, COUNT(count));
    if (refusal != CERAMBIU_OK) {
        printf("rewrite refused %" PRIu32 "\n", refusal);
        return;
    }
    const bool same = count[0] == COUNT(image) && memcmp(written, image, sizeof(image)) == 0;
    printf("rewrite %" PRIu32 ", %s\n", count[0], same ? "the same rules" : "other rules");
}

/* A signed word, from its two's complement. */
static int32_t signed_word(uint32_t word)
{
    return word <= INT32_MAX ? (int32_t)word : -(int32_t)(UINT32_MAX - word) - 1;
}

/* When a rule starts by the sun, with room for so many starts. */
static void print_readback(uint32_t rule, const uint32_t snapshot[CERAMBIU_SNAPSHOT_HEAD_WORDS], size_t room)
{
    uint32_t starts[2 * CERAMBIU_SOLAR_START_WORDS], count[CERAMBIU_READBACK_VALUES];
    uint32_t refusal = cerambiu_readback(store, COUNT(store), rule, snapshot, CERAMBIU_SNAPSHOT_HEAD_WORDS, starts, room * CERAMBIU_SOLAR_START_WORDS,
                                         count, COUNT(count));
    if (refusal != CERAMBIU_OK) {
        printf("readback refused %" PRIu32 "\n", refusal);
        return;
    }
    printf("readback %" PRIu32 "\n", count[0]);
    for (uint32_t i = 0; i < count[0]; i++) {
        const uint32_t *start = starts + i * CERAMBIU_SOLAR_START_WORDS;
        printf("start %" PRIu32 " %" PRIu32 " %" PRId32 "\n", start[0], start[1], signed_word(start[2]));
    }
}

/* The fitter: rule 20 starts 90 seconds before sunrise, and 30.5 seconds behind sunset. The sun rises at 00:10 and sets at 16:40; then it is not known. */
static void fitter(void)
{
    static const uint32_t by_the_sun[] = {
        20, 1, 0, 0, 0, 2, 0, 0, 0, 0, 0, 0, 0, 0, 0, 0, CERAMBIU_AT_SOLAR, 0, (uint32_t)-90000, 0, 0, 0, 0, 0, CERAMBIU_AT_SOLAR, 1, 30500, 0, 0, 0, 0, 0,
        8, 0, 1, 0, 0, 0, 16, 16, 32, 32, 32, 32, 32,
    };
    uint32_t snapshot[CERAMBIU_SNAPSHOT_HEAD_WORDS];
    look(snapshot, 3000);
    snapshot[5] = 1;
    snapshot[6] = 10;
    snapshot[7] = 16 * 60 + 40;
    printf("load %" PRIu32 "\n", cerambiu_load(store, COUNT(store), 3000, by_the_sun, COUNT(by_the_sun)));
    print_readback(20, snapshot, 2);
    print_readback(20, snapshot, 1);
    snapshot[5] = snapshot[6] = snapshot[7] = 0;
    print_readback(20, snapshot, 2);
}

int main(void)
{
    uint32_t refusal = cerambiu_new(store, COUNT(store), 0);
    if (refusal == CERAMBIU_OK) {
        refusal = cerambiu_load(store, COUNT(store), 0, image, COUNT(image));
    }
    if (refusal != CERAMBIU_OK) {
        printf("refused %" PRIu32 "\n", refusal);
        return 1;
    }
    run(0, 5, false, COUNT(outcomes));
    tick(999);
    tick(1000);

    /* The rule author: an image without its last word, so that its limits stand elsewhere. The rules stay as they were. */
    printf("load refused %" PRIu32 "\n", cerambiu_load(store, COUNT(store), 1000, image, COUNT(image) - 1));

    /* The bus driver: a snapshot without its last word. */
    uint32_t snapshot[CERAMBIU_SNAPSHOT_HEAD_WORDS];
    look(snapshot, 1001);
    refusal = cerambiu_tick(store, COUNT(store), snapshot, COUNT(snapshot) - 1, outcomes, COUNT(outcomes), effects, COUNT(effects), NULL, 0);
    printf("tick refused %" PRIu32 "\n", refusal);

    /* The host: no room for the outcome. Nothing has happened; with room the same run does it all. */
    run(1001, 5, true, CERAMBIU_OUTCOME_WORDS - 1);
    run(1001, 5, true, COUNT(outcomes));
    send();

    /* An integrator: from Monday to Friday at 5:00 and 5:30; then on the first of a month, which no trigger can say. */
    programme("0,30 5 * * 1-5 lights up");
    programme("0 5 1 * * lights up");
    panel();

    /* The fitter reads back what was set: minute 9 and -30,000 ms are 00:08:30. */
    fitter();

    /* The bench: three actions have 40 lists; number 18 is (0, 1, 2), the rule above. */
    short_list(18);
    short_list(40);
    compare();
    return 0;
}
