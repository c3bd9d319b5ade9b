/* Two slots with a sequence number and a CRC-32: see keep.h. */
#include "keep.h"

#include <string.h>

#define CHUNK_WORDS (KEEP_CHUNK_BYTES / 4)

struct slot {
    bool good;
    uint64_t sequence;
};

uint32_t keep_crc32(uint32_t crc, const unsigned char *bytes, size_t count)
{
    static const uint32_t of_nibble[16] = {0x00000000, 0x1db71064, 0x3b6e20c8, 0x26d930ac, 0x76dc4190, 0x6b6b51f4, 0x4db26158, 0x5005713c,
                                           0xedb88320, 0xf00f9344, 0xd6d6a3e8, 0xcb61b38c, 0x9b64c2b0, 0x86d3d2d4, 0xa00ae278, 0xbdbdf21c};
    crc = ~crc;
    for (size_t i = 0; i < count; i++) {
        crc = crc >> 4 ^ of_nibble[(crc ^ bytes[i]) & 15];
        crc = crc >> 4 ^ of_nibble[(crc ^ (uint32_t)bytes[i] >> 4) & 15];
    }
    return ~crc;
}

static void put(unsigned char *bytes, uint32_t word)
{
    bytes[0] = (unsigned char)word;
    bytes[1] = (unsigned char)(word >> 8);
    bytes[2] = (unsigned char)(word >> 16);
    bytes[3] = (unsigned char)(word >> 24);
}

static uint32_t get(const unsigned char *bytes)
{
    return bytes[0] | (uint32_t)bytes[1] << 8 | (uint32_t)bytes[2] << 16 | (uint32_t)bytes[3] << 24;
}

static bool write_slot(const struct keep *keep, int slot, uint64_t sequence, const uint32_t *words, size_t count)
{
    const uint32_t head[KEEP_HEAD_WORDS] = {KEEP_MARK, (uint32_t)count, (uint32_t)sequence, (uint32_t)(sequence >> 32)};
    unsigned char chunk[KEEP_CHUNK_BYTES];
    size_t first = 0, filled = 0;
    uint32_t crc = 0;
    if (!keep->erase(keep->memory, slot)) {
        return false;
    }
    for (size_t i = 0; i < KEEP_HEAD_WORDS + count; i++) {
        put(chunk + filled, i < KEEP_HEAD_WORDS ? head[i] : words[i - KEEP_HEAD_WORDS]);
        filled += 4;
        if (filled == KEEP_CHUNK_BYTES) {
            crc = keep->crc(crc, chunk, filled);
            if (!keep->write(keep->memory, slot, first, chunk, filled)) {
                return false;
            }
            first += filled;
            filled = 0;
        }
    }
    put(chunk + filled, keep->crc(crc, chunk, filled)); /* last of all: a slot is good when its last byte is written */
    return keep->write(keep->memory, slot, first, chunk, filled + 4);
}

/* Reads a slot, and looks whether it is good: its mark, its count, its CRC. The words go to `words`, unless that is NULL. */
static struct slot read_slot(const struct keep *keep, int slot, uint32_t *words, size_t count)
{
    struct slot seen = {false, 0};
    unsigned char chunk[KEEP_CHUNK_BYTES];
    size_t place = 4 * KEEP_HEAD_WORDS;
    if (!keep->read(keep->memory, slot, 0, chunk, place) || get(chunk) != KEEP_MARK || get(chunk + 4) != count) {
        return seen;
    }
    seen.sequence = get(chunk + 8) | (uint64_t)get(chunk + 12) << 32;
    uint32_t crc = keep->crc(0, chunk, place);
    for (size_t i = 0; i < count; i += CHUNK_WORDS) {
        size_t now = count - i < CHUNK_WORDS ? count - i : CHUNK_WORDS;
        if (!keep->read(keep->memory, slot, place, chunk, 4 * now)) {
            return seen;
        }
        crc = keep->crc(crc, chunk, 4 * now);
        place += 4 * now;
        for (size_t j = 0; words != NULL && j < now; j++) {
            words[i + j] = get(chunk + 4 * j);
        }
    }
    seen.good = keep->read(keep->memory, slot, place, chunk, 4) && get(chunk) == crc;
    return seen;
}

/* The slot with the newest words, the second of two equal ones; -1 where none is good. */
static int newest(const struct slot seen[2])
{
    if (seen[0].good && seen[1].good) {
        return seen[0].sequence > seen[1].sequence ? 0 : 1;
    }
    return seen[0].good ? 0 : seen[1].good ? 1 : -1;
}

int keep_save(const struct keep *keep, const uint32_t *words, size_t count)
{
    const struct slot seen[2] = {read_slot(keep, 0, NULL, count), read_slot(keep, 1, NULL, count)};
    int needed = newest(seen);
    uint64_t sequence = needed < 0 ? 1 : seen[needed].sequence + 1;
    for (int written = 0; written < 2; written++) {
        int slot = (needed == 0) != (written == 1); /* the needed one second */
        if (!write_slot(keep, slot, sequence, words, count)) {
            return written;
        }
        const struct slot now = read_slot(keep, slot, NULL, count);
        if (!now.good || now.sequence != sequence) {
            return written;
        }
    }
    return 2;
}

int keep_restore(const struct keep *keep, uint32_t *words, size_t count)
{
    struct slot seen[2] = {read_slot(keep, 0, NULL, count), read_slot(keep, 1, NULL, count)};
    for (int slot = newest(seen); slot >= 0; slot = newest(seen)) {
        seen[slot] = read_slot(keep, slot, words, count); /* looked at again: what is handed out is what was checked */
        if (seen[slot].good) {
            return seen[!slot].good && seen[!slot].sequence == seen[slot].sequence ? 2 : 1;
        }
    }
    memset(words, 0, count * sizeof *words);
    return 0;
}
