/*
 * Keeps the words of a house over a power cut: two slots, each with a sequence number and a CRC-32, written one behind the other.
 *
 * After a save both slots hold the same words. A cut at any moment of a save leaves one slot whole: that of the save before until the first slot is
 * written, the new one from then on. A damaged bit in one slot leaves the other. So neither loses more than the calls since the last save; and since
 * a save looks at both slots first and never starts with the only good one, a damaged bit and then a cut during a save lose no more. What is brought
 * back was saved, as it is: a CRC-32 finds each change of one or two bits, or of bits within 32 of each other, and misses one in 4,294,967,296
 * of all others.
 *
 * The memory is yours: flash, EEPROM, FRAM, a file. C99, no allocation, no state of its own, a stack of some 800 bytes and what your functions take.
 * Nothing here is proved; examples/c/keep_test.c tries every byte of a save and every bit of both slots.
 *
 *   a slot, in 32-bit words, each of four bytes, low byte first:
 *     0  KEEP_MARK     1  number of words kept     2, 3  sequence number, low and high     4 ..  the words     last  CRC-32 of all bytes before it
 */
#ifndef KEEP_H
#define KEEP_H

#include <stdbool.h>
#include <stddef.h>
#include <stdint.h>

#define KEEP_MARK 0x31504b43u /* "CKP1": another number where the form of a slot changes */
#define KEEP_HEAD_WORDS 4
#define KEEP_TAIL_WORDS 1
#define KEEP_CHUNK_BYTES 256 /* a page of most flash memories */
#define KEEP_SLOT_BYTES(words) (4 * (KEEP_HEAD_WORDS + (size_t)(words) + KEEP_TAIL_WORDS))

/*
 * The memory, as two slots (0 and 1) of KEEP_SLOT_BYTES each. Each function answers false where it failed. What they must promise:
 *
 *   apart   Erasing or writing one slot changes no byte of the other, whenever the power fails: the slots share no erase block (of flash), no
 *           file. Of the slot that is erased or written when the power fails any bytes may be left.
 *   read    Gives the bytes that stand there now, from anywhere in the slot.
 *   erase   After it every byte of the slot can be written once. What can be written over (EEPROM, FRAM, a file) has nothing to do here.
 *   write   Comes after an erase of the slot, from its first byte on without a gap, each byte once: KEEP_CHUNK_BYTES at a time, from a multiple of
 *           them, the last time fewer. It returns when the bytes would outlive a cut (a file: fsync), not before.
 *   crc     keep_crc32, or your CRC unit where it gives the same: keep_crc32(0, "123456789", 9) is 0xcbf43926.
 *
 * `memory` is handed to the first three as it is.
 */
struct keep {
    bool (*read)(void *memory, int slot, size_t first, unsigned char *bytes, size_t count);
    bool (*erase)(void *memory, int slot);
    bool (*write)(void *memory, int slot, size_t first, const unsigned char *bytes, size_t count);
    uint32_t (*crc)(uint32_t crc, const unsigned char *bytes, size_t count);
    void *memory;
};

/*
 * Saves the words, which nothing may change until it returns: first into the slot that is not needed, reads it back, then into the other. Answers
 * how many slots hold them: 2; or 1, where the second could not be written; or 0, where the first could not, and then the other slot is as it was.
 * Under 2 a slot is worn out or its memory fails: tell it to somebody.
 */
int keep_save(const struct keep *keep, const uint32_t *words, size_t count);

/*
 * Brings back the words that were saved last. Answers how many slots hold them: 2; or 1, where the other is damaged, older or empty: save soon; or
 * 0, where no slot is good, and then the words are all 0. Slots that were saved with another count are not good.
 */
int keep_restore(const struct keep *keep, uint32_t *words, size_t count);

/* The CRC-32 of IEEE 802.3 (zlib, PNG) of bytes that follow those with this CRC; 0 for none before. */
uint32_t keep_crc32(uint32_t crc, const unsigned char *bytes, size_t count);

#endif
