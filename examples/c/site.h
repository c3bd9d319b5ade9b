/* What house.c asks of the hardware, and what the hardware asks of it. */
#ifndef SITE_H
#define SITE_H

#include "cerambiu.h"
#include "keep.h"

enum { HOUSE, LAMP, TARGETS };             /* light targets */
enum { OFF, DIMMED, FULL };                /* verbs */
enum { RULE_OF_THE_BUTTON = 2, DAY = 1440 }; /* minutes of a day */
enum { HOUSE_WORDS = CERAMBIU_STORE_WORDS + 3 + TARGETS }; /* that the house keeps: the store, a time, a minute, and what each light was told */

/* THE HARDWARE */
uint64_t site_uptime(void);                                   /* milliseconds since the power came */
bool site_clock_right(void);                                  /* the clock with a battery: whether it can be believed; */
uint64_t site_clock_ms(void);                                 /* its milliseconds, which know no summer time; */
uint32_t site_clock_minute(void);                             /* the local minute since the start of day 0 */
uint32_t site_sunset(uint32_t at);                            /* of the day of this minute */
void site_tell(uint32_t target, uint32_t verb);               /* a telegram to a light */
void site_list(uint32_t due, const uint32_t *effect);         /* an effect that comes late: for the log */
void site_fault(const char *what);                            /* for the panel */
extern const struct keep site_memory;                         /* two slots of flash */

/* THE HOUSE */
void house_boot(void);                                        /* when the power has come */
void house_turn(uint32_t pressed);                            /* once a minute, and when a button is pressed: its rule, or 0 */

#endif
