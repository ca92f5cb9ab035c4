/* The calls of libntif.a, for C on x86-64: check, start and step on images of sequential NTIF automata. docs/C.md has a
 * worked step and what to do about each refusal.
 *
 * Every call may be given anything: it ends with the answer or with a numbered refusal, and a refusal changes no byte
 * that was lent. No call allocates, none keeps what it was lent or anything else: calls whose written buffers are apart
 * may run at the same time. What the caller owes: a pointer has as many bytes behind it as the length says, they stay
 * as they are while the call runs, and a buffer that is written shares no byte with another buffer of the call. A
 * pointer whose length is 0 isn't followed and may be NULL. A call takes its stack from its caller, less than 256 KiB of
 * it: on the deepest images there are 134 kB for check, 132 for start, 165 for step (README.md, "For C"). */
#ifndef NTIF_H
#define NTIF_H

#include <stddef.h>
#include <stdint.h>

#ifdef __cplusplus
extern "C" {
#endif

/* The numbers given instead of an answer, then what the place is. Within a number the lowest place is given. check gives
 * 1 to 12; start 1 to 9, 13 to 16; step 1 to 9, 17, 13, 18, 19, 20, then 21 to 27 from the run: the first thing met
 * there decides. */
enum ntif_refusal {
    NTIF_IMAGE_LENGTH = 1,     /* image length outside limits: 0 */
    NTIF_MARK_OR_LENGTH = 2,   /* mark or length field wrong: 0 */
    NTIF_STARTS = 3,           /* starts, table sizes or counts wrong: 0 */
    NTIF_ENTRIES = 4,          /* a type or variable entry wrong: 0 */
    NTIF_MALFORMED = 5,        /* row malformed, by code, field, range, child or list: the row */
    NTIF_NO_ACTION = 6,        /* state's row not an action: the state; condition not an expression: number of states */
    NTIF_NOT_NAMED_ONCE = 7,   /* row not named exactly once: the row */
    NTIF_TYPING = 8,           /* typing: the row whose rule fails */
    NTIF_BINDING = 9,          /* binding: the row whose rule fails */
    NTIF_SETS_SHORT = 10,      /* sets buffer shorter than states: 0 */
    NTIF_INITIALISATION = 11,  /* initialisation, a variable may be read undefined: the state */
    NTIF_SPEECH = 12,          /* speech, the action may stop after communicating or communicate twice: the state */
    NTIF_STORE_LENGTH = 13,    /* store length is not the number of variables: 0 */
    NTIF_PARAMETER_COUNT = 14, /* wrong number of parameter values: 0 */
    NTIF_PARAMETER_VALUE = 15, /* parameter value outside its type: the variable */
    NTIF_CONDITION_FALSE = 16, /* initial condition false: 0 */
    NTIF_NO_STATE = 17,        /* no such state: 0 */
    NTIF_SLOT_VALUE = 18,      /* slot neither undefined nor of its type: the variable */
    NTIF_LABEL_SHORT = 19,     /* label buffer under ten words: 0 */
    NTIF_BUDGET_OVER = 20,     /* budget over the limit: 0 */
    NTIF_BLOCKED = 21,         /* blocked, nothing communicated: the action row */
    NTIF_UNDEFINED_READ = 22,  /* undefined variable read: the action row */
    NTIF_SCRIPT_ENDED = 23,    /* script ended: the action row */
    NTIF_WORD_RANGE = 24,      /* word of the script out of range: the action row */
    NTIF_BUDGET_SPENT = 25,    /* budget spent: the action row */
    NTIF_BLOCKED_SPOKEN = 26,  /* blocked after communicating: the action row */
    NTIF_SECOND = 27           /* second communication: the action row */
};

/* The limits of images, so that buffers can be laid out for every one of them. An image has 2..16 types, 0..64 variables,
 * 1..64 states, 1..64 gates and 2..2,048 rows; gate 0 is tau. */
#define NTIF_IMAGE_LEAST 38
#define NTIF_IMAGE_MOST 16816
#define NTIF_TYPES 16
#define NTIF_VARIABLES 64
#define NTIF_STATES 64
#define NTIF_GATES 64
#define NTIF_ROWS 2048

/* The most units that a step may be given, the words that a label takes, and how many of them may be values. */
#define NTIF_BUDGET 1000000
#define NTIF_LABEL_WORDS 10
#define NTIF_LABEL_VALUES 8

/* Bytes of buffers that do for every image: sets, parameters and store (a store is lent with 4 bytes for each variable of
 * its image, no more), label. */
#define NTIF_SETS_BYTES (8 * NTIF_STATES)
#define NTIF_STORE_BYTES (4 * NTIF_VARIABLES)
#define NTIF_LABEL_BYTES (4 * NTIF_LABEL_WORDS)

/* A word of a store that holds this is an undefined variable. Parameters, scripts and labels have no such mark. */
#define NTIF_UNDEFINED 65536

/* The first word of a label without a communication; otherwise it's the gate, and gate 0 is tau. */
#define NTIF_NO_GATE (-1)

/* An answer has 0 in bits 0 to 7 where the call succeeds; otherwise it has a refusal's number there and its place from
 * bit 16 on. */
static inline unsigned ntif_number(uint64_t answer) { return (unsigned)(answer & 0xFF); }
static inline unsigned ntif_place(uint64_t answer) { return (unsigned)(answer >> 16); }

/* A step that moves has the next state in bits 8 to 15, the units used in bits 16 to 39 and the words read in bits 40
 * to 63. Of a refusal these say nothing. */
static inline int ntif_moved(uint64_t answer) { return (answer & 0xFF) == 0; }
static inline uint32_t ntif_next_state(uint64_t answer) { return (uint32_t)(answer >> 8 & 0xFF); }
static inline uint32_t ntif_units(uint64_t answer) { return (uint32_t)(answer >> 16 & 0xFFFFFF); }
static inline uint32_t ntif_words(uint64_t answer) { return (uint32_t)(answer >> 40); }

/* Word i of a buffer: a signed 32-bit number, the low byte first. */
static inline int32_t ntif_get_word(const uint8_t *bytes, size_t i) {
    const uint8_t *b = bytes + 4 * i;
    uint32_t n = (uint32_t)b[0] | (uint32_t)b[1] << 8 | (uint32_t)b[2] << 16 | (uint32_t)b[3] << 24;

    return n < 0x80000000u ? (int32_t)n : -(int32_t)(0xFFFFFFFFu - n) - 1;
}
static inline void ntif_put_word(uint8_t *bytes, size_t i, int32_t value) {
    uint8_t *b = bytes + 4 * i;
    uint32_t n = (uint32_t)value;

    b[0] = (uint8_t)(n & 0xFF);
    b[1] = (uint8_t)(n >> 8 & 0xFF);
    b[2] = (uint8_t)(n >> 16 & 0xFF);
    b[3] = (uint8_t)(n >> 24);
}

/* Whether the mask of state s, in sets that check gave, has variable v. */
static inline int ntif_surely_defined(const uint8_t *sets, size_t s, unsigned v) {
    return sets[8 * s + v / 8] >> v % 8 & 1;
}

/* Lengths are in bytes everywhere. A part word at the end of a buffer isn't counted and stays. */

/* check: 1 to 12, else 0. `sets` is a buffer of little-endian 64-bit masks, `sets_length` its length in bytes. Where the
 * image is accepted, mask s has bit v set if variable v is surely defined on entering state s; masks past the states
 * keep their content. A part mask at the end isn't counted and stays. */
uint64_t ntif_check(const uint8_t *image, size_t image_length, uint8_t *sets, size_t sets_length);

/* start: 1 to 9, 13 to 16, else 0. `params` holds the values of the parameters in the order of their variables, a word
 * each; `store` has one word for each variable, and of what it held nothing is read. On success the store holds the
 * parameters, all other variables are undefined, and the state is 0. */
uint64_t ntif_start(const uint8_t *image, size_t image_length, const uint8_t *params, size_t params_length, uint8_t *store,
                    size_t store_length);

/* step: 1 to 9, 17, 13, 18, 19, 20, then 21 to 27, else a move. One step of the automaton from `state` on, which uses at
 * most `budget` units: one for each action row that is entered and one for each further test of a loop.
 *   store   one word for each variable, its value or NTIF_UNDEFINED.
 *   script  the words that the run reads, in running order: one for each select with branches (0 is the first), each
 *           item of an any, each receipt. It's only read; words left over are allowed.
 *   label   ten words at least. A move writes ten: the gate, or -1 for no communication; the number of values; the
 *           values; zeros to the tenth. Later words stay.
 * A move changes store and label. Its next state, with the store as it then is, is what the next step takes. */
uint64_t ntif_step(const uint8_t *image, size_t image_length, uint32_t state, uint8_t *store, size_t store_length,
                   const uint8_t *script, size_t script_length, uint32_t budget, uint8_t *label, size_t label_length);

#ifdef __cplusplus
}
#endif

#endif
