/*
 * The stack that each call needs, measured: every call runs on a thread that fills its stack with a pattern first; what is no longer the pattern was
 * used. With a rule that has an action of most kinds; with the image that takes the most actions one behind the other and inside each other; and with
 * one that opens as many lists inside each other as any image can: 12. What every call needs at most, for every input, is computed from the machine
 * code (docs/PERFORMANCE.md, "Stack").
 * Then every call is made with these images on a thread that has 64 KB of stack, above pages that must not be touched.
 *
 *   cc -std=c99 -O2 -Iinclude examples/c/stack.c target/staticlib/libcerambiu.a -lpthread -o stack && ./stack
 */
#define _DEFAULT_SOURCE
#include <pthread.h>
#include <stdio.h>
#include <stdlib.h>
#include <string.h>
#include <sys/mman.h>

#include "cerambiu.h"

#define COUNT(words) (sizeof(words) / sizeof((words)[0]))
#define STACK_BYTES (16u << 20)
#define SMALL_STACK_BYTES (64u << 10)
#define PATTERN 0xa5
#define OWN_BYTES 256 /* for the frame that measures */

enum call { NEW, LOAD, UNLOAD, ENABLE, RUN, DRY_RUN, TICK, NEXT_DEADLINE, COUNTERS, NEXT_START, TELEGRAMS, CRONTAB, ROOM, SHORT_LIST, REWRITE, READBACK };

static const char *const names[] = { "new", "load", "unload", "enable", "run", "dry run", "tick", "next_deadline", "counters", "next_start",
                                     "telegrams", "crontab", "room", "short_list", "rewrite", "readback" };

static uint32_t store[CERAMBIU_STORE_WORDS], image[CERAMBIU_IMAGE_MAX_WORDS];
static size_t image_words;
static uint32_t outcomes[CERAMBIU_TICK_MAX_OUTCOMES * CERAMBIU_OUTCOME_WORDS], effects[4096 * CERAMBIU_EFFECT_WORDS];
static uint32_t list[4096 * CERAMBIU_EFFECT_WORDS];
static uint32_t snapshot[CERAMBIU_SNAPSHOT_HEAD_WORDS], answer[CERAMBIU_COUNTERS_VALUES];
static uint32_t refusal;
static const uint8_t line[] = { '*', ' ', '*', ' ', '*', ' ', '*', ' ', '0', '-', '6', ',', '0', '0', '1' };
/* A Cycle, a percent and a Log, with the value and the scenes that they lead to. */
static const uint32_t set[] = { 3, 0, 2, 0, 0, 0, 0, 0, 28, 1, 2, 0, 0, 0, 0, 0, 21, 7, 0, 0, 0, 0, 0, 0 };
static const uint32_t number[] = { 0, 500000, 0, 0, 0, 0, 0, 0 }, scenes[] = { 4, 5 };

static void make(enum call which)
{
    const size_t n = COUNT(store), s = COUNT(snapshot), os = COUNT(outcomes), es = COUNT(effects), a = COUNT(answer);
    switch (which) {
    case NEW: refusal = cerambiu_new(store, n, 0); break;
    case LOAD: refusal = cerambiu_load(store, n, 0, image, image_words); break;
    case UNLOAD: refusal = cerambiu_unload(store, n, 0); break;
    case ENABLE: refusal = cerambiu_enable(store, n, 5, true, answer, a); break;
    case TICK: refusal = cerambiu_tick(store, n, snapshot, s, outcomes, os, effects, es, answer, a); break;
    case RUN: refusal = cerambiu_run(store, n, 5, false, snapshot, s, outcomes, os, effects, es, answer, a); break;
    case DRY_RUN: refusal = cerambiu_run(store, n, 5, true, snapshot, s, outcomes, os, effects, es, answer, a); break;
    case NEXT_DEADLINE: refusal = cerambiu_next_deadline(store, n, answer, a); break;
    case COUNTERS: refusal = cerambiu_counters(store, n, answer, a); break;
    case NEXT_START: refusal = cerambiu_next_start(store, n, snapshot, s, answer, a); break;
    case TELEGRAMS: refusal = cerambiu_telegrams(effects, es, list, COUNT(list), answer, a); break;
    case CRONTAB: refusal = cerambiu_crontab(line, sizeof(line), 6, list, COUNT(list), answer, a); break;
    case ROOM: refusal = cerambiu_room(image, image_words, answer, a); break;
    case READBACK: refusal = cerambiu_readback(store, n, 5, snapshot, s, list, COUNT(list), answer, a); break;
    case SHORT_LIST: refusal = cerambiu_short_list(17, set, COUNT(set), number, COUNT(number), scenes, COUNT(scenes), answer, a); break;
    case REWRITE: refusal = cerambiu_rewrite(image, image_words, list, COUNT(list), answer, a); break;
    }
}

/* The stack of the thread that makes a call, and how much of it the call used. */
static volatile unsigned char *stack;
static size_t used;

static void *measure(void *which)
{
    volatile unsigned char here = 0;
    const size_t top = (size_t)((uintptr_t)&here - (uintptr_t)stack);
    size_t low;
    for (low = 0; low < top - OWN_BYTES; low++) {
        stack[low] = PATTERN;
    }
    make(*(enum call *)which);
    for (low = 0; low < top && stack[low] == PATTERN; low++) {
    }
    used = top - low;
    return NULL;
}

/* Makes a call on a thread whose stack is these bytes. It must not be refused; the deep image shares its list and is too long to be written anew. */
static void on_stack(void *bytes, size_t count, void *(*makes)(void *), enum call which)
{
    pthread_attr_t attributes;
    pthread_t thread;
    if (pthread_attr_init(&attributes) || pthread_attr_setstack(&attributes, bytes, count) ||
        pthread_create(&thread, &attributes, makes, &which) || pthread_join(thread, NULL)) {
        perror("thread");
        exit(1);
    }
    pthread_attr_destroy(&attributes);
    if (refusal != CERAMBIU_OK && !(which == REWRITE && refusal == CERAMBIU_REWRITE_SIZE)) {
        printf("%s refused %u\n", names[which], (unsigned)refusal);
        exit(1);
    }
}

/* Bytes of stack that a call needs. */
static size_t needs(enum call which)
{
    on_stack((void *)stack, STACK_BYTES, measure, which);
    return used;
}

static void *call(void *which)
{
    make(*(enum call *)which);
    return NULL;
}

/* A call on a thread with 64 KB of stack. The 16 MB below them cannot be read or written: a call that needs more ends the program. */
static void fits(enum call which)
{
    static unsigned char *pages;
    if (pages == NULL) {
        pages = mmap(NULL, STACK_BYTES + SMALL_STACK_BYTES, PROT_NONE, MAP_PRIVATE | MAP_ANONYMOUS, -1, 0);
        if (pages == MAP_FAILED || mprotect(pages + STACK_BYTES, SMALL_STACK_BYTES, PROT_READ | PROT_WRITE)) {
            perror("pages");
            exit(1);
        }
    }
    on_stack(pages + STACK_BYTES, SMALL_STACK_BYTES, call, which);
}

static void put(const uint32_t *words, size_t count)
{
    memcpy(image + image_words, words, count * sizeof(uint32_t));
    image_words += count;
}

/* Rule 5, by a timer, every second, at noon and at sunrise; most kinds of action, each once. */
static void usual_image(void)
{
    static const uint32_t rule[16] = { 5, 1, 0, 0, 0, 4, 0, 1, 0, 14 };
    static const uint32_t block[8] = { 1, 15, 1 };
    static const uint32_t triggers[4][8] = {
        { CERAMBIU_TIMER_FIRES, 1 }, { CERAMBIU_EVERY, 1000 }, { CERAMBIU_AT_TIME, 12, 0, 127 }, { CERAMBIU_AT_SOLAR, 0, 0 }
    };
    static const uint32_t conditions[1][8] = { { CERAMBIU_TIME_IN_RANGE, 0, 1 } };
    static const uint32_t actions[16][8] = {
        { CERAMBIU_LIGHT, 1, 2, 0, 7 }, { CERAMBIU_CYCLE, 0, 2 }, { CERAMBIU_PANEL_SELECT, 0, 0, 0 }, { CERAMBIU_TIMER_RESTART, 1, 500 },
        { CERAMBIU_VAR_SET, 1, 0, 5, 0 }, { CERAMBIU_VAR_ADD, 1, 1 }, { CERAMBIU_RULE_ENABLE, 5 }, { CERAMBIU_AFTER, 500, 14, 1 },
        { CERAMBIU_CALL, 1 }, { CERAMBIU_REPEAT, 2, 14, 1 }, { CERAMBIU_CONDITIONAL, 0, 14, 1, 14, 1 }, { CERAMBIU_RULE_DISABLE, 6 },
        { CERAMBIU_WAIT, 500 }, { CERAMBIU_LOG, 9 }, { CERAMBIU_LOG, 3 }, { CERAMBIU_LOG, 4 }
    };
    static const uint32_t values[2][8] = { { CERAMBIU_LITERAL, 3, 0 }, { CERAMBIU_OFFSET, CERAMBIU_READ_VAR, 1, 0, 0, 1 } };
    static const uint32_t bounds[2][8] = { { CERAMBIU_SOLAR, 0, 0 }, { CERAMBIU_CLOCK, 23, 59 } };
    static const uint32_t pool[2] = { 3, 4 };
    static const uint32_t trailer[13] = { 256, 8, 255, 255, 255, 0, 16, 24, 56, 64, 192, 208, 224 };
    image_words = 0;
    put(rule, 16);
    put(block, 8);
    put(&triggers[0][0], 32);
    put(&conditions[0][0], 8);
    put(&actions[0][0], 128);
    put(&values[0][0], 16);
    put(&bounds[0][0], 16);
    put(pool, 2);
    put(trailer, 13);
}

/* Rule 5: 506 calls of blocks, of which 505 give an empty list and the last the whole list again, eight levels down. */
static void deep_image(void)
{
    static const uint32_t rule[16] = { 5, 1, 0, 0, 0, 0, 0, 0, 0, 506 };
    static const uint32_t blocks[2][8] = { { 1, 0, 0 }, { 2, 0, 506 } };
    static const uint32_t trailer[13] = { 256, 8, 255, 255, 255, 0, 16, 32, 32, 32, 4080, 4080, 4080 };
    image_words = 0;
    put(rule, 16);
    put(&blocks[0][0], 16);
    for (uint32_t i = 0; i < 506; i++) {
        const uint32_t action[8] = { CERAMBIU_CALL, i < 505 ? 1 : 2 };
        put(action, 8);
    }
    put(trailer, 13);
}

/* Rule 5: an After with a Repeat, which has a Conditional, which has a Call of a block that calls itself, eight levels down. */
static void nested_image(void)
{
    static const uint32_t rule[16] = { 5, 1, 0, 0, 0, 0, 0, 0, 0, 1 };
    static const uint32_t block[8] = { 1, 3, 1 };
    static const uint32_t condition[8] = { CERAMBIU_CONTROLLER_ACTIVE };
    static const uint32_t actions[4][8] = {
        { CERAMBIU_AFTER, 500, 1, 1 }, { CERAMBIU_REPEAT, 2, 2, 1 }, { CERAMBIU_CONDITIONAL, 0, 3, 1, 3, 0 }, { CERAMBIU_CALL, 1 }
    };
    static const uint32_t trailer[13] = { 256, 8, 255, 255, 255, 0, 16, 24, 24, 32, 64, 64, 64 };
    image_words = 0;
    put(rule, 16);
    put(block, 8);
    put(condition, 8);
    put(&actions[0][0], 32);
    put(trailer, 13);
}

/* What the bus driver sees: no rows, the sun, a minute of the day. */
static void look(uint32_t now, uint32_t minute)
{
    const uint32_t words[CERAMBIU_SNAPSHOT_HEAD_WORDS] = { now, 0, 1, 2, minute, 1, 300, 1200, 1 };
    memcpy(snapshot, words, sizeof(words));
}

/* Bytes of stack of each call, in an order that gives every call something to do. */
static void measure_all(size_t bytes[])
{
    bytes[NEW] = needs(NEW);
    bytes[LOAD] = needs(LOAD);
    bytes[UNLOAD] = needs(UNLOAD);
    needs(LOAD);
    look(0, 719);
    needs(TICK);
    for (enum call which = ENABLE; which <= READBACK; which++) {
        look(which == TICK ? 2000 : 100, which == TICK ? 720 : 719);
        bytes[which] = needs(which);
    }
}

/* Every call, on 64 KB. */
static void all_fit(void)
{
    fits(NEW);
    fits(LOAD);
    fits(LOAD);
    look(0, 719);
    fits(TICK);
    fits(ENABLE);
    look(100, 719);
    fits(RUN);
    fits(DRY_RUN);
    look(2000, 720);
    fits(TICK);
    fits(NEXT_DEADLINE);
    fits(COUNTERS);
    fits(NEXT_START);
    fits(TELEGRAMS);
    fits(CRONTAB);
    fits(ROOM);
    fits(SHORT_LIST);
    fits(REWRITE);
    fits(READBACK);
    fits(UNLOAD);
}

int main(void)
{
    static void (*const images[])(void) = { usual_image, deep_image, nested_image };
    size_t bytes[COUNT(images)][COUNT(names)];
    stack = mmap(NULL, STACK_BYTES, PROT_READ | PROT_WRITE, MAP_PRIVATE | MAP_ANONYMOUS, -1, 0);
    if (stack == MAP_FAILED) {
        perror("mmap");
        return 1;
    }
    for (size_t i = 0; i < COUNT(images); i++) {
        images[i]();
        measure_all(bytes[i]);
    }
    printf("%-14s %12s %12s %12s\n", "bytes of stack", "usual image", "deep image", "nested image");
    for (size_t which = 0; which < COUNT(names); which++) {
        printf("%-14s %12zu %12zu %12zu\n", names[which], bytes[0][which], bytes[1][which], bytes[2][which]);
    }
    printf("on 64 KB of stack, with each image: new, load, load again, tick, enable, run, dry run, tick, next_deadline, counters, next_start, telegrams, crontab, room, short_list, rewrite, readback, unload .. ");
    fflush(stdout);
    for (size_t i = 0; i < COUNT(images); i++) {
        images[i]();
        all_fit();
    }
    printf("done\n");
    return 0;
}
