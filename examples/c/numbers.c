/*
 * Which press caused this? A house that keeps a log of its outcomes: each with the number of its activation. It prints the log as it comes, then the
 * effects of each number added up, with the first outcome that shows it: that is the press, timer or schedule behind all of them.
 *
 *   cc -std=c99 -Iinclude examples/c/numbers.c target/staticlib/libcerambiu.a -o house && ./house
 *
 * It prints examples/c/numbers.expected. The sum of one number is at most B(B - 1)/2 + 1, B the budget of the image that was loaded when the number
 * was given: theorem log-of-runs in crates/demand3/proofs/Logs.antt.
 */
#include <inttypes.h>
#include <stdio.h>

#include "cerambiu.h"

#define COUNT(words) (sizeof(words) / sizeof((words)[0]))
#define OUTCOMES 4
#define EFFECTS 16
#define LOG 64
#define BUDGET 8

static uint32_t store[CERAMBIU_STORE_WORDS];
static uint32_t outcomes[OUTCOMES * CERAMBIU_OUTCOME_WORDS];
static uint32_t effects[EFFECTS * CERAMBIU_EFFECT_WORDS];

enum { LAMP_FOR_A_WHILE = 5, LAMP_ON = 6, EVERY_TWO_SECONDS = 7 };
enum { LAMP = 1, ON = 1, DIMMED = 2, OFF = 3 };

/* Rule 5: on, a second later dimmed, a second later off. Rule 6: on. Rule 7: a Log every two seconds. */
static const uint32_t image[] = {
    LAMP_FOR_A_WHILE, 1, 0, 0, 0, 0, 0, 0, 0, 5, 0, 0, 0, 0, 0, 0,
    LAMP_ON, 1, 0, 0, 0, 0, 0, 0, 0, 1, 0, 0, 0, 0, 0, 0,
    EVERY_TWO_SECONDS, 1, 0, 0, 0, 1, 0, 0, 5, 1, 0, 0, 0, 0, 0, 0,
    CERAMBIU_EVERY, 2000, 0, 0, 0, 0, 0, 0,
    CERAMBIU_LIGHT, LAMP, 2, 0, ON, 0, 0, 0,
    CERAMBIU_WAIT, 1000, 0, 0, 0, 0, 0, 0,
    CERAMBIU_LIGHT, LAMP, 2, 0, DIMMED, 0, 0, 0,
    CERAMBIU_WAIT, 1000, 0, 0, 0, 0, 0, 0,
    CERAMBIU_LIGHT, LAMP, 2, 0, OFF, 0, 0, 0,
    CERAMBIU_LOG, 9, 0, 0, 0, 0, 0, 0,
    BUDGET, 0, 1, 0, 0, 0, 48, 48, 56, 56, 104, 104, 104,
};

struct entry {
    uint64_t time, number;
    uint32_t rule, trigger, effects;
};
static struct entry entries[LOG];
static size_t logged;

/* The outcomes of a tick or run, into the log. */
static void keep_log(uint64_t now, uint32_t count)
{
    for (uint32_t i = 0; i < count && logged < LOG; i++) {
        const uint32_t *outcome = outcomes + i * CERAMBIU_OUTCOME_WORDS;
        uint64_t number = outcome[6] | (uint64_t)outcome[7] << 32;
        entries[logged++] = (struct entry){now, number, outcome[0], outcome[2], outcome[5]};
        printf("%4" PRIu64 " ms: number %" PRIu64 ", rule %" PRIu32 ", trigger %" PRIu32 ", effects %" PRIu32 "\n", now, number, outcome[0],
               outcome[2], outcome[5]);
    }
}

/* A tick, or a run of a rule. */
static void call(uint32_t rule, bool dry, uint64_t now)
{
    uint32_t snapshot[CERAMBIU_SNAPSHOT_HEAD_WORDS] = {(uint32_t)now, (uint32_t)(now >> 32), 0, 0, 0, 0, 0, 0, 1}, answer[CERAMBIU_TICK_VALUES];
    uint32_t refusal = rule == 0 ? cerambiu_tick(store, COUNT(store), snapshot, COUNT(snapshot), outcomes, COUNT(outcomes), effects,
                                                 COUNT(effects), answer, COUNT(answer))
                                 : cerambiu_run(store, COUNT(store), rule, dry, snapshot, COUNT(snapshot), outcomes, COUNT(outcomes), effects,
                                                COUNT(effects), answer, COUNT(answer));
    if (refusal != CERAMBIU_OK) {
        printf("refused %" PRIu32 "\n", refusal);
        return;
    }
    keep_log(now, answer[0]);
}

/* Each number once, at its first entry. Returns false where a sum passes the bound, or a number is more than one above those before it. */
static bool add_up(void)
{
    uint64_t greatest = 0;
    bool holds = true;
    for (size_t i = 0; i < logged; i++) {
        uint64_t number = entries[i].number, sum = 0;
        if (number <= greatest) {
            continue; /* 0, or seen before */
        }
        holds = holds && number == greatest + 1;
        greatest = number;
        for (size_t j = i; j < logged; j++) {
            sum += entries[j].number == number ? entries[j].effects : 0;
        }
        holds = holds && sum <= BUDGET * (BUDGET - 1) / 2 + 1;
        printf("number %" PRIu64 ": rule %" PRIu32 " at %" PRIu64 " ms, %s; effects in all %" PRIu64 "\n", number, entries[i].rule, entries[i].time,
               entries[i].trigger == CERAMBIU_OUTCOME_HTTP_TRIGGER ? "by hand" : "by itself", sum);
    }
    return holds;
}

int main(void)
{
    uint32_t refusal = cerambiu_new(store, COUNT(store), 0);
    if (refusal == CERAMBIU_OK) {
        refusal = cerambiu_load(store, COUNT(store), 0, image, COUNT(image));
    }
    if (refusal != CERAMBIU_OK) {
        printf("refused %" PRIu32 "\n", refusal);
        return 1;
    }
    call(LAMP_FOR_A_WHILE, false, 0);
    call(LAMP_ON, false, 0);
    call(LAMP_FOR_A_WHILE, false, 500);
    call(LAMP_ON, true, 600);
    for (uint64_t now = 1000; now <= 4000; now += 500) {
        call(0, false, now);
    }
    return add_up() ? 0 : 1;
}
