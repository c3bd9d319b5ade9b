/*
 * Tries keep.c on stores of the engine, over a memory that behaves as flash does: erased to ones, a byte written once.
 *
 *   cc -std=c99 -O2 -Iinclude examples/c/keep_test.c examples/c/keep.c target/staticlib/libcerambiu.a -o keep_test && ./keep_test
 *
 * A power cut after a byte is tried by a restore right after that byte, from within the save. What is restored must be the words that were saved
 * before, or those that are being saved, and from the moment of the first whole slot on the latter. It prints keep_test.expected. With an argument N
 * it tries every N-th bit and moment only, for the sanitizers, and prints other numbers.
 */
#include <stdio.h>
#include <stdlib.h>
#include <string.h>

#include "cerambiu.h"
#include "keep.h"

#define WORDS CERAMBIU_STORE_WORDS
#define BYTES KEEP_SLOT_BYTES(WORDS)
#define CHUNKS (BYTES / KEEP_CHUNK_BYTES + 1)
#define STORES 3
#define NONE (-1)

static uint32_t saved[STORES][WORDS], restored[WORDS];
static unsigned char memory[2][BYTES], copy[2][BYTES];

static void must(bool holds, const char *what)
{
    if (!holds) {
        printf("FAILED: %s\n", what);
        exit(1);
    }
}

/* THE CRC ----------------------------------------------------------------------------------------------------------------------------
 *
 * A CRC is linear: that of a chunk behind a state is the state moved on over the chunk's length, plus that of the chunk alone. So the CRC of a chunk
 * is worked out only where its bytes are not those of the last time, and a million restores take half a minute and not an hour. The result is that
 * of keep_crc32 for all bytes; some restores are made with keep_crc32 itself.
 */
struct chunk {
    unsigned char bytes[KEEP_CHUNK_BYTES];
    uint32_t alone;
};
static struct chunk chunks[2][CHUNKS], *reading;
static uint32_t moved[4][256];

static uint32_t quick_crc(uint32_t crc, const unsigned char *bytes, size_t count)
{
    struct chunk *chunk = reading;
    reading = NULL;
    if (chunk == NULL || count != KEEP_CHUNK_BYTES) {
        return keep_crc32(crc, bytes, count);
    }
    if (memcmp(chunk->bytes, bytes, count) != 0) {
        memcpy(chunk->bytes, bytes, count);
        chunk->alone = ~keep_crc32(~(uint32_t)0, bytes, count);
    }
    crc = ~crc;
    return ~(moved[0][crc & 255] ^ moved[1][crc >> 8 & 255] ^ moved[2][crc >> 16 & 255] ^ moved[3][crc >> 24] ^ chunk->alone);
}

static void make_quick_crc(void)
{
    static const unsigned char zeros[KEEP_CHUNK_BYTES];
    for (int i = 0; i < 4; i++) {
        for (uint32_t byte = 0; byte < 256; byte++) {
            moved[i][byte] = ~keep_crc32(~(byte << 8 * i), zeros, sizeof zeros);
        }
    }
    /* the chunks' bytes are zeros, and so is the CRC of zeros alone */
}

/* THE MEMORY -------------------------------------------------------------------------------------------------------------------------- */

static unsigned long step, cut_at, boots, every = 1; /* a step is a byte erased or written */
static int before = NONE, now = NONE;                /* the store that was saved, and the one that is being saved */
static unsigned long came;                           /* the step from which on the new one is restored; 0 not yet */
static bool watched;
static int worn = NONE; /* a slot whose first byte has lost a bit */

static int restore(const struct keep *keep, int *slots);
static const struct keep quick, plain;

/* The power fails after this step: what would be restored? */
static void boot(void)
{
    int slots, store = restore(&quick, &slots);
    boots++;
    must(store == before || store == now, "a cut: restored is what was saved before, or what is being saved");
    must(came == 0 || store == now, "a cut: the new store, once it has come, stays");
    if (store == now && came == 0) {
        came = step;
    }
}

static bool goes_on(void)
{
    step++;
    if (watched && step % every == 0) {
        boot();
    }
    return step != cut_at;
}

static bool read_bytes(void *at, int slot, size_t first, unsigned char *bytes, size_t count)
{
    unsigned char(*slots)[BYTES] = at;
    must(first + count <= BYTES, "read within the slot");
    memcpy(bytes, slots[slot] + first, count);
    reading = count == KEEP_CHUNK_BYTES ? &chunks[slot][first / KEEP_CHUNK_BYTES] : NULL;
    return true;
}

static bool erase(void *at, int slot)
{
    unsigned char(*slots)[BYTES] = at;
    for (size_t i = 0; i < BYTES; i++) {
        slots[slot][i] = 0xff;
        if (!goes_on()) {
            return false;
        }
    }
    return true;
}

static bool write_bytes(void *at, int slot, size_t first, const unsigned char *bytes, size_t count)
{
    unsigned char(*slots)[BYTES] = at;
    must(first + count <= BYTES && first % KEEP_CHUNK_BYTES == 0 && count <= KEEP_CHUNK_BYTES, "pages are written within the slot");
    for (size_t i = 0; i < count; i++) {
        must(slots[slot][first + i] == 0xff, "a byte of flash is written once");
        slots[slot][first + i] = bytes[i];
        if (slot == worn && first + i == 0) {
            slots[slot][0] &= 0xfe;
        }
        if (!goes_on()) {
            return false;
        }
    }
    return true;
}

static const struct keep quick = {read_bytes, erase, write_bytes, quick_crc, memory};
static const struct keep plain = {read_bytes, erase, write_bytes, keep_crc32, memory};

/* Which store is restored? Words that are none of them, or are not zeros where there is none, end the program. */
static int restore(const struct keep *keep, int *slots)
{
    static const uint32_t zeros[WORDS];
    *slots = keep_restore(keep, restored, WORDS);
    if (*slots == 0) {
        must(memcmp(restored, zeros, sizeof zeros) == 0, "zeros where nothing is restored");
        return NONE;
    }
    for (int i = 0; i < STORES; i++) {
        if (memcmp(restored, saved[i], sizeof restored) == 0) {
            return i;
        }
    }
    must(false, "restored is a store that was saved");
    return NONE;
}

/* Saves a store, with a restore after each step where it is watched; ends early where the power fails. */
static int save(int store, bool watch, unsigned long cut)
{
    int slots;
    step = came = 0;
    cut_at = cut;
    now = store;
    watched = watch;
    int answer = keep_save(&quick, saved[store], WORDS);
    watched = false;
    cut_at = 0;
    before = restore(&quick, &slots);
    must(answer == 0 || before == store, "what was saved is restored");
    must(answer < 2 || slots == 2, "a whole save stands in both slots");
    return answer;
}

/* THE TRIALS -------------------------------------------------------------------------------------------------------------------------- */

static void cuts(void)
{
    int slots;
    memset(memory, 0xff, sizeof memory);
    must(restore(&plain, &slots) == NONE, "nothing is restored from an empty memory");
    memset(memory, 0, sizeof memory);
    must(restore(&plain, &slots) == NONE, "nothing is restored from zeros");
    every *= 61;
    must(save(0, true, 0) == 2, "the first save");
    every /= 61;
    printf("cuts of the first save: %lu moments; restored was nothing, or it\n", boots);
    boots = 0;
    must(save(1, true, 0) == 2, "the second save");
    must(every > 1 || came == 2 * BYTES, "the second save is restored from its last byte in the first slot on");
    printf("cuts: %lu moments of a save of %zu bytes, behind each byte erased and each written; restored was the save before, ", boots, 2 * BYTES);
    printf("or from step %lu on the new one\n", came);
}

/* A save that is cut, and then a save that is cut: at these steps, and a step after each of them. */
static void cuts_after_cuts(void)
{
    unsigned long firsts = 0, seldom = every;
    boots = 0;
    every = every * 1009;
    for (unsigned long first = 1; first < 4 * BYTES; first += first == 1 ? 2 * BYTES / 11 : 4 * BYTES / 23) {
        must(save(0, false, 0) == 2 && save(1, false, first) < 2, "a save that is cut");
        must(save(2, true, 0) == 2, "a save after a cut");
        firsts++;
    }
    every = seldom;
    printf("cuts after %lu cuts: %lu moments\n", firsts, boots);
}

/* A damaged bit, and then a save that is cut. */
static void cuts_after_damage(void)
{
    unsigned long bits = 0, seldom = every;
    boots = 0;
    every = every * 1009;
    for (unsigned long bit = 0; bit < 2 * 8 * BYTES; bit += 8 * BYTES / 5) {
        must(save(0, false, 0) == 2, "a save");
        memory[bit / 8 / BYTES][bit / 8 % BYTES] ^= (unsigned char)(1 << bit % 8);
        must(save(1, true, 0) == 2, "a save after damage");
        bits++;
    }
    every = seldom;
    printf("cuts after %lu damaged bits: %lu moments\n", bits, boots);
}

/* Every bit of both slots, of a whole save: the last save is restored. With keep_crc32 itself: every `seldom`-th. */
static void flips(const struct keep *keep, const char *name, unsigned long seldom)
{
    unsigned long tried = 0;
    int slots;
    for (unsigned long bit = 0; bit < 2 * 8 * BYTES; bit += seldom) {
        unsigned char *byte = &memory[bit / 8 / BYTES][bit / 8 % BYTES];
        *byte ^= (unsigned char)(1 << bit % 8);
        must(restore(keep, &slots) == before && slots == 1, "a damaged bit: the last save is restored, from the other slot");
        *byte ^= (unsigned char)(1 << bit % 8);
        tried++;
    }
    printf("bits: %lu of %zu damaged, one at a time, with %s; restored was the last save\n", tried, 2 * 8 * BYTES, name);
}

/* The same of a save that was cut when its first slot was whole: a new store in one slot, an older one in the other. */
static void flips_of_two(unsigned long seldom)
{
    unsigned long tried = 0;
    int slots;
    must(save(1, false, 0) == 2 && save(2, false, 2 * BYTES) == 0, "a save that is cut behind the last byte of its first slot");
    must(before == 2, "of two good slots the newer one is restored");
    for (unsigned long bit = 0; bit < 2 * 8 * BYTES; bit += seldom) {
        unsigned char *byte = &memory[bit / 8 / BYTES][bit / 8 % BYTES];
        *byte ^= (unsigned char)(1 << bit % 8);
        must(restore(&quick, &slots) == (bit / 8 < BYTES ? 1 : 2) && slots == 1, "a damaged bit of two stores: the other one is restored");
        *byte ^= (unsigned char)(1 << bit % 8);
        tried++;
    }
    printf("bits of two different stores: %lu; restored was the other one\n", tried);
}

static void failing_memory(void)
{
    int slots;
    for (worn = 0; worn < 2; worn++) {
        int stuck = worn;
        worn = NONE;
        must(save(1, false, 0) == 2, "a save before the wear");
        worn = stuck;
        memcpy(copy, memory, sizeof copy);
        int answer = save(2, false, 0);
        must(answer == worn, "a worn slot is told");
        must(worn == 1 || memcmp(copy[1], memory[1], BYTES) == 0, "the other slot is as it was");
        must(restore(&plain, &slots) == (worn == 0 ? 1 : 2) && slots == 1, "a worn slot: the other one is restored");
    }
    worn = NONE;
    must(keep_restore(&plain, restored, WORDS - 1) == 0, "words of another count are not restored");
    puts("worn slots: told, and the other slot kept");
}

/* WHAT THE STORE RULES SEE ------------------------------------------------------------------------------------------------------------ */

/* Of each bit of a store, changed alone: is it still a store? The rules of a store are no checksum; keep.c finds each of these bits. */
static void flips_as_stores(uint32_t *store)
{
    unsigned long tried = 0, pass = 0, in_rules = 0;
    uint32_t image_words = store[3]; /* docs/STORE.md: the image stands behind its count */
    for (size_t i = 0; i < WORDS; i++) {
        for (unsigned bit = 0; bit < 32; bit++, tried++) {
            store[i] ^= (uint32_t)1 << bit;
            if ((i * 32 + bit) % every == 0 && cerambiu_counters(store, WORDS, NULL, 0) == CERAMBIU_OK) {
                pass++;
                in_rules += i >= 4 && i < 4 + image_words;
            }
            store[i] ^= (uint32_t)1 << bit;
        }
    }
    if (every == 1) {
        printf("store rules alone: %lu of %lu damaged bits leave a store, %lu of them in the words of the rules\n", pass, tried, in_rules);
    }
}

static uint32_t tick(uint32_t *store, uint64_t time, uint32_t minute)
{
    static uint32_t outcomes[8 * CERAMBIU_OUTCOME_WORDS], effects[64 * CERAMBIU_EFFECT_WORDS];
    const uint32_t snapshot[CERAMBIU_SNAPSHOT_HEAD_WORDS] = {(uint32_t)time, (uint32_t)(time >> 32), 1, 0, minute, 1, 420, 1020, 1};
    uint32_t answer[CERAMBIU_TICK_VALUES];
    uint32_t refusal = cerambiu_tick(store, WORDS, snapshot, CERAMBIU_SNAPSHOT_HEAD_WORDS, outcomes, sizeof outcomes / 4, effects,
                                     sizeof effects / 4, answer, CERAMBIU_TICK_VALUES);
    must(refusal == CERAMBIU_OK, "a tick");
    return answer[1];
}

/* Words that a tick without an effect changes. */
static unsigned idle_words(uint32_t *store, uint64_t time, uint32_t minute)
{
    unsigned changed = 0;
    memcpy(restored, store, sizeof restored);
    must(tick(store, time, minute) == 0, "an idle tick");
    for (size_t i = 0; i < WORDS; i++) {
        changed += restored[i] != store[i];
    }
    return changed;
}

/* Three stores of a house at noon: no lamp on; a lamp on for ten minutes, by an After that waits; the lamp off again. */
static void make_stores(void)
{
    static const uint32_t image[] = {
        1, 1, 0, 0, 0, 0, 0, 0, 0, 2, 0, 0, 0, 0, 0, 0, /* by hand: lamp on, off after ten minutes */
        2, 1, 0, 0, 0, 1, 0, 0, 2, 3, 0, 0, 0, 0, 0, 0, /* 05:00: dimmed, a wait, full */
        3, 1, 0, 0, 1, 1, 0, 0, 5, 1, 0, 0, 0, 0, 0, 0, /* half an hour after sunset: off */
        CERAMBIU_AT_TIME, 5, 0, 127, 0, 0, 0, 0, CERAMBIU_AT_SOLAR, 1, 1800000, 0, 0, 0, 0, 0,
        CERAMBIU_LIGHT, 2, 2, 0, 11, 0, 0, 0, CERAMBIU_AFTER, 600000, 6, 1, 0, 0, 0, 0,
        CERAMBIU_LIGHT, 1, 2, 0, 10, 0, 0, 0, CERAMBIU_WAIT, 900000, 0, 0, 0, 0, 0, 0, CERAMBIU_LIGHT, 1, 2, 0, 11, 0, 0, 0,
        CERAMBIU_LIGHT, 1, 2, 0, 12, 0, 0, 0, CERAMBIU_LIGHT, 2, 2, 0, 12, 0, 0, 0,
        16, 0, 1, 0, 0, 0, 48, 48, 64, 64, 120, 120, 120,
    };
    static uint32_t store[WORDS], outcomes[CERAMBIU_OUTCOME_WORDS], effects[16 * CERAMBIU_EFFECT_WORDS];
    const uint64_t noon = 43200000;
    const uint32_t snapshot[CERAMBIU_SNAPSHOT_HEAD_WORDS] = {(uint32_t)noon + 5000, 0, 1, 0, 721, 1, 420, 1020, 1};
    must(cerambiu_new(store, WORDS, 0) == 0 && cerambiu_load(store, WORDS, 0, image, sizeof image / sizeof *image) == 0, "new, load");
    tick(store, noon - 60000, 719);
    unsigned first = idle_words(store, noon, 720), second = idle_words(store, noon + 1000, 720);
    memcpy(saved[0], store, sizeof store);
    uint32_t refusal = cerambiu_run(store, WORDS, 1, false, snapshot, CERAMBIU_SNAPSHOT_HEAD_WORDS, outcomes, CERAMBIU_OUTCOME_WORDS, effects,
                                    sizeof effects / 4, NULL, 0);
    must(refusal == CERAMBIU_OK, "a run");
    memcpy(saved[1], store, sizeof store);
    flips_as_stores(store);
    must(tick(store, noon + 605000, 730) == 1, "the lamp goes off");
    memcpy(saved[2], store, sizeof store);
    printf("an idle tick changes %u word of the store, the first of a minute %u\n", second, first);
}

int main(int argc, char **argv)
{
    every = argc > 1 ? strtoul(argv[1], NULL, 10) : 1;
    must(every > 0, "every N-th");
    must(keep_crc32(0, (const unsigned char *)"123456789", 9) == 0xcbf43926, "the check value of CRC-32");
    make_quick_crc();
    make_stores();
    cuts();
    cuts_after_cuts();
    cuts_after_damage();
    must(save(2, false, 0) == 2, "a save");
    flips(&quick, "the CRC chunk by chunk", every);
    flips(&plain, "keep_crc32", 509 * every);
    flips_of_two(61 * every);
    failing_memory();
    return 0;
}
