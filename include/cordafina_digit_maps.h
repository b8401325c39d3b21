/*
 * Digit maps, for C99 and C++. docs/REFERENCE.md says what a map is and what the
 * answers mean.
 */
#ifndef CORDAFINA_DIGIT_MAPS_H
#define CORDAFINA_DIGIT_MAPS_H

#include <stddef.h>
#include <stdint.h>

/* What cordafina_dial_answer gives. */
#define CORDAFINA_NO_MATCH 0      /* nothing can match */
#define CORDAFINA_MORE_NEEDED 1   /* more needed */
#define CORDAFINA_MORE_POSSIBLE 2 /* matched with more possible */
#define CORDAFINA_CLOSED 3        /* matched and closed */

/* What cordafina_dial_timer gives. */
#define CORDAFINA_TIMER_NONE 0
#define CORDAFINA_TIMER_START 1
#define CORDAFINA_TIMER_LONG 2
#define CORDAFINA_TIMER_SHORT 3
#define CORDAFINA_TIMER_RUN_OUT 4

/* What cordafina_dial_refusal gives, 0 for an answer; cordafina_refusal_text has the words. */
#define CORDAFINA_BAD_MAP 6     /* malformed or too large map */
#define CORDAFINA_BAD_STRING 7  /* dialled string over 32 symbols, or with a foreign one */

#ifdef __cplusplus
extern "C" {
#endif

/*
 * Loads a map and answers one string that was dialled on it.
 *
 *   map, map_len           the map's text; read only
 *   start                  the start timer; only whether it is 0 counts
 *   zero                   a start timer of 0, before any symbol: 0 waits
 *                          without end, any other value runs out at once
 *   dialled, dialled_len   what was dialled; read only
 *
 * Bits 0 to 7 of the result are the answer, bits 8 to 15 the timer, bits 16 to
 * 31 the refusal; with a refusal the rest is 0. 6 goes before 7. Contents and
 * lengths need no check beforehand. Each pointer must be that of a readable
 * area of the length given, not null even where that is 0. Nothing is kept and
 * nothing is written; calls may run at the same time.
 */
uint32_t cordafina_dial(const uint8_t *map, size_t map_len,
                        uint32_t start, uint32_t zero,
                        const uint8_t *dialled, size_t dialled_len);

/* Stack that cordafina_dial_plain uses at most, measured as CORDAFINA_STACK_BYTES is. */
#define CORDAFINA_PLAIN_STACK_BYTES 20480

/*
 * As cordafina_dial, by the plain matcher: the same result on every map
 * and string, but it tries each way through repeated selectors, and on some
 * maps does not come back in any useful time (docs/DIGITS.md). For support, not
 * for calls.
 */
uint32_t cordafina_dial_plain(const uint8_t *map, size_t map_len,
                              uint32_t start, uint32_t zero,
                              const uint8_t *dialled, size_t dialled_len);

static inline int cordafina_dial_answer(uint32_t result)
{
    return (int)(result & 0xFFu);
}

static inline int cordafina_dial_timer(uint32_t result)
{
    return (int)(result >> 8 & 0xFFu);
}

static inline int cordafina_dial_refusal(uint32_t result)
{
    return (int)(result >> 16);
}

/* Words that hold a loaded map. */
#define CORDAFINA_MAP_CELLS 1040

/*
 * The same in two steps, for a map on which many strings are dialled.
 * cordafina_load_map fills the cells and gives a number, 0 for a refused map,
 * which goes with them to cordafina_dial_map; the cells are not to be changed
 * between, but whatever they hold, nothing outside them is read.
 */
uint32_t cordafina_load_map(const uint8_t *map, size_t map_len,
                            uint32_t start, uint32_t zero, uint32_t *cells);

uint32_t cordafina_dial_map(uint32_t loaded, const uint32_t *cells,
                            const uint8_t *dialled, size_t dialled_len);

#ifdef __cplusplus
}
#endif

#endif
