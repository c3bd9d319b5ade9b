/*
 * The simulated site of house.c: its clock, bus, memory and power over 30 days, which pass twice: without power cuts, and with them. Both times the
 * clock is set forward in spring and back in autumn. It prints house.expected: at each event what came late, the minutes of light that a dark gap
 * cost, and that outside the gaps not one minute of a light differs.
 */
#include "site.h"

#include <stdio.h>
#include <stdlib.h>
#include <string.h>

#define COUNT(list) (sizeof(list) / sizeof((list)[0]))
#define SLOT_BYTES KEEP_SLOT_BYTES(HOUSE_WORDS)

/* A minute is one of true time, from the start of day 0; the house runs from day 1 to day 30. */
enum { SPRING = 13 * DAY + 120, AUTUMN = 27 * DAY + 120, NOON = 720, FIRST = DAY, LAST = 31 * DAY };
enum what { PLAIN, IN_A_SAVE, DAMAGED_BIT, EMPTY_BATTERY, SWAPPED_UNIT };
static const struct cut {
    uint32_t from, minutes;
    enum what what;
    const char *text;
} cuts[] = {
    {2 * DAY + 290, 40, PLAIN, "under an hour"},
    {4 * DAY + 305, 5, PLAIN, "within a wait"},
    {6 * DAY + 299, 62, PLAIN, "over an hour"},
    {8 * DAY + 960, 420, PLAIN, "over the evening"},
    {10 * DAY + 723, 20, IN_A_SAVE, "in the middle of a save"},
    {12 * DAY + 660, 3, DAMAGED_BIT, "and a bit of a slot damaged"},
    {16 * DAY + 540, 50, EMPTY_BATTERY, "and the clock lost"},
    {19 * DAY + 190, 1800, PLAIN, "over a day"},
    {24 * DAY + 780, 30, SWAPPED_UNIT, "and another unit, with an empty memory"},
    {28 * DAY + 150, 60, PLAIN, "in the night feed"},
};

static unsigned char flash[2][SLOT_BYTES], lights[TARGETS], seen[2][LAST][TARGETS];
static bool with_cuts, clock_right, dark[LAST];
static uint32_t minute, powered, saves, telegrams;
static size_t bytes_left = SIZE_MAX; /* that are written until the power fails */

uint64_t site_uptime(void) { return (uint64_t)(minute - powered) * 60000; }
uint64_t site_clock_ms(void) { return (uint64_t)minute * 60000; }
uint32_t site_clock_minute(void) { return minute + (minute >= SPRING && minute < AUTUMN ? 60 : 0); }
bool site_clock_right(void) { return clock_right; }
uint32_t site_sunset(uint32_t at) { return 1020 + at / DAY + (at >= SPRING && at < AUTUMN + 60 ? 60 : 0); }

void site_tell(uint32_t target, uint32_t verb)
{
    lights[target] = (unsigned char)verb;
    telegrams++;
}

static void print_time(uint32_t at)
{
    printf("%02u:%02u", (unsigned)(at % DAY / 60), (unsigned)(at % 60));
}

void site_list(uint32_t due, const uint32_t *effect)
{
    static const char *const targets[] = {"house", "lamp"}, *const verbs[] = {"off", "dimmed", "full"};
    if (with_cuts) {
        printf("    due ");
        print_time(due);
        printf(", done ");
        print_time(site_clock_minute());
        printf(": %s %s\n", targets[effect[1]], verbs[effect[2]]);
    }
}

void site_fault(const char *what)
{
    if (bytes_left > 0) {
        printf("FAILED: %s\n", what);
        exit(1);
    }
}

static bool flash_read(void *unused, int slot, size_t first, unsigned char *bytes, size_t count)
{
    (void)unused;
    memcpy(bytes, flash[slot] + first, count);
    return true;
}

static bool flash_erase(void *unused, int slot)
{
    (void)unused;
    memset(flash[slot], 0xff, SLOT_BYTES);
    saves += slot == 0;
    return bytes_left > 0;
}

static bool flash_write(void *unused, int slot, size_t first, const unsigned char *bytes, size_t count)
{
    (void)unused;
    size_t written = count < bytes_left ? count : bytes_left;
    memcpy(flash[slot] + first, bytes, written);
    bytes_left -= bytes_left == SIZE_MAX ? 0 : written;
    return written == count;
}

const struct keep site_memory = {flash_read, flash_erase, flash_write, keep_crc32, NULL};

/* Minutes in which a light is on, from one minute to another, without cuts or with them. */
static unsigned light(uint32_t target, bool cut, uint32_t from, uint32_t to, bool in_the_dark)
{
    unsigned sum = 0;
    for (uint32_t i = from; i < to; i++) {
        sum += seen[cut][i][target] != OFF && (!in_the_dark || dark[i]);
    }
    return sum;
}

static void event(const char *text)
{
    if (with_cuts) {
        printf("day %u ", (unsigned)(site_clock_minute() / DAY));
        print_time(site_clock_minute());
        printf(" %s\n", text);
    }
}

static void power_off(const struct cut *cut)
{
    char text[120];
    snprintf(text, sizeof text, "power off for %u minutes, %s; of light: %u", (unsigned)cut->minutes, cut->text,
             light(HOUSE, false, cut->from, cut->from + cut->minutes, false));
    event(text);
    if (cut->what == IN_A_SAVE) { /* a button, and the power fails when half of the first slot is written */
        bytes_left = SLOT_BYTES / 2;
        house_turn(RULE_OF_THE_BUTTON);
        bytes_left = SIZE_MAX;
    } else if (cut->what == DAMAGED_BIT) {
        flash[0][12345] ^= 4;
    } else if (cut->what == EMPTY_BATTERY) {
        clock_right = false;
    } else if (cut->what == SWAPPED_UNIT) {
        memset(flash, 0xff, sizeof flash);
    }
}

/* One minute with power. */
static void on(bool boots, bool pressed)
{
    if (minute == SPRING || minute == AUTUMN) {
        event(minute == SPRING ? "clock set forward" : "clock set back");
    }
    if (boots) {
        event("power on");
        powered = minute;
        house_boot();
    }
    if (minute % DAY == NOON + 60 && !clock_right) {
        clock_right = true;
        event("clock set");
    }
    house_turn(pressed ? RULE_OF_THE_BUTTON : 0);
}

static void month(void)
{
    size_t next = 0;
    uint32_t back = FIRST; /* when the power comes back */
    memset(flash, 0xff, sizeof flash);
    clock_right = true;
    for (minute = FIRST; minute < LAST; minute++) {
        bool button = minute % DAY == NOON;
        if (next < COUNT(cuts) && minute == cuts[next].from) {
            button = cuts[next].what == IN_A_SAVE;
            if (with_cuts) {
                power_off(&cuts[next]);
                back = minute + cuts[next].minutes;
            }
            next++;
        }
        if (minute < back) {
            dark[minute] = true;
            memset(lights, OFF, sizeof lights);
        } else {
            on(minute == back, button);
        }
        memcpy(seen[with_cuts][minute], lights, sizeof lights);
    }
}

/* A light over the 30 days; answers how many minutes are unlike those without cuts, and outside the dark gaps. */
static unsigned print_light(uint32_t target, const char *name)
{
    unsigned differ = 0;
    for (uint32_t day = FIRST / DAY; day < LAST / DAY; day++) {
        unsigned without = light(target, false, day * DAY, (day + 1) * DAY, false), with = light(target, true, day * DAY, (day + 1) * DAY, false);
        if (with != without) {
            printf("day %u: %s %u minutes, without cuts %u, of them in the dark gap %u\n", (unsigned)day, name, with, without,
                   light(target, false, day * DAY, (day + 1) * DAY, true));
        }
    }
    for (uint32_t i = FIRST; i < LAST; i++) {
        differ += !dark[i] && seen[0][i][target] != seen[1][i][target];
    }
    printf("30 days: %s %u minutes, without cuts %u, of them in dark gaps %u; outside the gaps %u minutes differ\n", name,
           light(target, true, FIRST, LAST, false), light(target, false, FIRST, LAST, false), light(target, false, FIRST, LAST, true), differ);
    return differ;
}

int main(void)
{
    month();
    unsigned saves_without = (unsigned)saves, telegrams_without = (unsigned)telegrams;
    with_cuts = true;
    month();
    unsigned differ = print_light(HOUSE, "house") + print_light(LAMP, "lamp");
    printf("without cuts: %u saves, %u telegrams\n", saves_without, telegrams_without);
    return differ != 0;
}
