/* The proved LAbS rehearsal machine, for C and C++ on x86-64 Linux: target/staticlib/librehearsal.a, which
 * `./rehearse` writes. docs/FORMATS.md says what tables, schedules, states, shelves and steps are;
 * examples/rehearse.c is a whole program.
 *
 * Slices. A slice is a pointer and a count of elements. A caller owes for each that the pointer is aligned, not null
 * (also where the count is 0) and valid for so many elements, and that what is written (all that is not const below)
 * overlaps no other slice. Nothing else is asked: any bytes as table and schedule and any words as state and shelf get
 * an answer. No call keeps a pointer, allocates or prints.
 *
 * Threads. The library has no data of its own. Calls may run in several threads at once, as long as no thread uses
 * what another one's call writes; what is const below is only read, and may be shared.
 *
 * Stack. As measured, a call on the deepest tables fits 800 KB of stack; an act whose guard compares two constants,
 * with a residual of one word, fits 2 KB. docs/DECISIONS.md has what each level of guards, expressions, processes and
 * residuals adds.
 *
 * Answers. An answer is one number, which the macros under "Answers" take apart. A refused call has its refusal and
 * its place in it, and leaves state, shelf, answer bytes and next as they came; the totals of a refused run are 0. */
#ifndef REHEARSAL_H
#define REHEARSAL_H

#include <stddef.h>
#include <stdint.h>

#ifdef __cplusplus
extern "C" {
#endif

/* The interface's version, which rises where something that was there changes; and how many change requests have
 * landed (docs/CHANGES.md), each of which may add calls and names. */
#define LABS_VERSION 1
#define LABS_REQUESTS 7

/* ---- Limits ---- */

#define LABS_MAX_NODES 4096
#define LABS_MAX_DEFINITIONS 64
#define LABS_MAX_AGENTS 32
/* Of attributes, of stigmergy keys, and of environment keys. */
#define LABS_MAX_KEYS 16
#define LABS_MAX_STEPS 8192
#define LABS_MAX_DERIVATIONS 65535
#define LABS_MAX_CLOCK 65535
/* Words of a residual. */
#define LABS_MAX_RESIDUAL 63

/* ---- Bytes of a table and of a schedule; operands are of four bytes, p and then q, or agent and then number ---- */

#define LABS_HEADER_BYTES 12
#define LABS_TABLE_BYTES(nodes) (LABS_HEADER_BYTES + 5 * (nodes))
#define LABS_TABLE_KIND(node) (LABS_HEADER_BYTES + (node))
#define LABS_TABLE_OPERAND(nodes, node) (LABS_HEADER_BYTES + (nodes) + 4 * (node))

#define LABS_SCHEDULE_BYTES(steps) (2 + 5 * (steps))
#define LABS_SCHEDULE_KIND(step) (2 + (step))
#define LABS_SCHEDULE_OPERAND(steps, step) (2 + (steps) + 4 * (step))

enum labs_node {
    LABS_NODE_IDLE = 0,
    LABS_NODE_TICK = 1,
    LABS_NODE_SET_ATTRIBUTE = 2,
    LABS_NODE_SET_STIGMERGY = 3,
    LABS_NODE_SET_ENVIRONMENT = 4,
    LABS_NODE_SEQUENCE = 5,
    LABS_NODE_CHOICE = 6,
    LABS_NODE_GUARDED = 7,
    LABS_NODE_PARALLEL = 8,
    LABS_NODE_CALL = 9,
    LABS_NODE_TRUE = 16,
    LABS_NODE_EQUAL = 17,
    LABS_NODE_LESS = 18,
    LABS_NODE_GREATER = 19,
    LABS_NODE_NOT = 20,
    LABS_NODE_AND = 21,
    LABS_NODE_OR = 22,
    LABS_NODE_CONSTANT = 32,
    LABS_NODE_ATTRIBUTE = 33,
    LABS_NODE_STIGMERGY = 34,
    LABS_NODE_ENVIRONMENT = 35,
    LABS_NODE_ADD = 36,
    LABS_NODE_SUBTRACT = 37,
    LABS_NODE_MULTIPLY = 38,
    LABS_NODE_DIVIDE = 39, /* truncated toward 0 */
    LABS_NODE_REMAINDER = 40, /* floored: 0, or of the divisor's sign */
    LABS_NODE_ROOT = 64
};

/* Whose value an attribute or stigmergy key node reads. */
enum labs_party { LABS_PARTY_OWN = 0, LABS_PARTY_SENDER = 1, LABS_PARTY_RECEIVER = 2 };

/* Kinds of steps. */
enum labs_step_kind { LABS_ACT = 0, LABS_PROPAGATE = 1, LABS_CONFIRM = 2 };

/* ---- Words of a state: LABS_CLOCK, LABS_AGENTS and the macros with a parameter give a word's index ---- */

/* The clock, and how many agents there are. */
#define LABS_CLOCK 0
#define LABS_AGENTS 1

/* A value: whether it is present (0 or 1), and its two's complement word, 0 where it is absent. */
#define LABS_PAIR_WORDS 2
#define LABS_STORE_WORDS (LABS_PAIR_WORDS * LABS_MAX_KEYS)
#define LABS_ENVIRONMENT(key) (LABS_AGENTS + 1 + LABS_PAIR_WORDS * (key))
#define LABS_ENVIRONMENT_PRESENT(key) (LABS_ENVIRONMENT(key))
#define LABS_ENVIRONMENT_VALUE(key) (LABS_ENVIRONMENT(key) + 1)

/* An agent's block: attributes, entries, two sets of keys, the residual's length and its words. */
#define LABS_BLOCK_WORDS (LABS_STORE_WORDS + LABS_ENTRIES_WORDS + 3 + LABS_MAX_RESIDUAL)
#define LABS_BLOCK(agent) (LABS_ENVIRONMENT(LABS_MAX_KEYS) + LABS_BLOCK_WORDS * (agent))
#define LABS_ATTRIBUTE(agent, key) (LABS_BLOCK(agent) + LABS_PAIR_WORDS * (key))
#define LABS_ATTRIBUTE_PRESENT(agent, key) (LABS_ATTRIBUTE(agent, key))
#define LABS_ATTRIBUTE_VALUE(agent, key) (LABS_ATTRIBUTE(agent, key) + 1)

/* An entry: its value's two's complement word, its stamp, and its writer, the number of the agent that wrote it (not of
 * one that passed it on). All three are 0 where there is no entry. */
#define LABS_ENTRY_WORDS 3
#define LABS_ENTRIES_WORDS (LABS_ENTRY_WORDS * LABS_MAX_KEYS)
#define LABS_ENTRY(agent, key) (LABS_ATTRIBUTE(agent, LABS_MAX_KEYS) + LABS_ENTRY_WORDS * (key))
#define LABS_ENTRY_VALUE(agent, key) (LABS_ENTRY(agent, key))
#define LABS_ENTRY_STAMP(agent, key) (LABS_ENTRY(agent, key) + 1)
#define LABS_ENTRY_WRITER(agent, key) (LABS_ENTRY(agent, key) + 2)

/* The keys to confirm and the keys to propagate: bit k is key k. */
#define LABS_ZC(agent) (LABS_ENTRY(agent, LABS_MAX_KEYS))
#define LABS_ZP(agent) (LABS_ZC(agent) + 1)

/* What is left of the agent's process: how many words, and word i of it. */
#define LABS_RESIDUAL_LENGTH(agent) (LABS_ZP(agent) + 1)
#define LABS_RESIDUAL(agent, i) (LABS_RESIDUAL_LENGTH(agent) + 1 + (i))

/* How many words a state has: 4,706. */
#define LABS_STATE_WORDS (LABS_BLOCK(LABS_MAX_AGENTS))

/* What the words of a residual are; any other word is a process node. */
enum labs_residual {
    LABS_RESIDUAL_IDLE = 65532,
    LABS_RESIDUAL_TICK = 65533,
    LABS_RESIDUAL_PARALLEL = 65534,
    LABS_RESIDUAL_SEQUENCE = 65535
};

/* ---- Words of a shelf: names, and then the states that are saved under them, in the same order ---- */

#define LABS_SHELF_PLACES 8
/* Names are 1 to 255. */
#define LABS_NAME_LIMIT 255

/* The name that a place holds, or 0 where the place is free; and where its state begins, of LABS_STATE_WORDS words.
 * What the state words of a free place hold is free. */
#define LABS_SHELF_NAME(place) (place)
#define LABS_SHELF_STATE(place) (LABS_SHELF_PLACES + LABS_STATE_WORDS * (place))

/* How many words a shelf has: 37,656. */
#define LABS_SHELF_WORDS (LABS_SHELF_STATE(LABS_SHELF_PLACES))

/* ---- Scratch: what its words hold, before and after a call, is free ---- */

/* Words that suffice for a table of so many nodes, and for every table. */
#define LABS_SCRATCH(nodes) (2 * (nodes))
#define LABS_SCRATCH_WORDS (LABS_SCRATCH(LABS_MAX_NODES))

/* ---- Answers ---- */

/* Set in the answer of a refused call, and of no other. */
#define LABS_REFUSED (UINT64_C(1) << 63)
#define LABS_IS_REFUSED(answer) (((answer) & LABS_REFUSED) != 0)

/* Of a refused call: why, and where (a node, a definition, or 0). */
#define LABS_REFUSAL(answer) ((unsigned)((answer) & 0xffff))
#define LABS_PLACE(answer) (((answer) & ~LABS_REFUSED) >> 16)

/* Of a step that is done, and of its preview: how many agents took the entry, those that had none for its key and those
 * that had an older one, and both together; of an act none. Any other call that is done answers 0. To be read only off
 * an answer that LABS_IS_REFUSED denies: of a refused step they would be read off the refusal's own bits. */
#define LABS_STEP_ADDED(answer) ((unsigned)((answer) & 0xffff))
#define LABS_STEP_REPLACED(answer) ((unsigned)((answer) >> 16 & 0xffff))
#define LABS_STEP_TAKEN(answer) (LABS_STEP_ADDED(answer) + LABS_STEP_REPLACED(answer))

/* The totals of a run, by their index in the words that are lent for them: how many steps were done, how many were
 * refused, and how often an entry was taken by an agent that had none, and by one that had an older one. */
enum labs_total { LABS_TOTAL_DONE = 0, LABS_TOTAL_REFUSED = 1, LABS_TOTAL_ADDED = 2, LABS_TOTAL_REPLACED = 3 };
#define LABS_TOTALS 4

/* Why a call was refused; of a step inside a run, its answer byte. */
enum labs_refusal {
    LABS_REFUSAL_TABLE_SHORT = 1, /* the table has fewer than 12 bytes */
    LABS_REFUSAL_SIZE_OUTSIDE_LIMITS = 2, /* a size is outside its limits, or D + S + A is over N */
    LABS_REFUSAL_TABLE_LENGTH = 3, /* the table has not 12 + 5N bytes */
    LABS_REFUSAL_BAD_NODE = 4, /* a kind or an operand is bad; place: the lowest such node */
    LABS_REFUSAL_WRONG_PARTY = 5, /* a wrong party, or an environment key in a link; place: the lowest such key node */
    LABS_REFUSAL_EXPOSED_CALL = 6, /* an exposed call that is not lower; place: the lowest such definition */
    LABS_REFUSAL_NODE_DERIVATIONS = 7, /* over 65,535 choices; place: the lowest such process node */
    LABS_REFUSAL_BUFFER_LENGTH = 8, /* state, next, scratch or shelf has a wrong length */
    LABS_REFUSAL_STATE_NOT_WELL_FORMED = 9, /* the state, or the shelf, is not well formed for the table */
    LABS_REFUSAL_STEP_OUT_OF_RANGE = 10, /* no such kind of step, agent or key */
    LABS_REFUSAL_KEYS_PENDING = 11, /* an act while keys are to be confirmed or propagated */
    LABS_REFUSAL_RESIDUAL_DERIVATIONS = 12, /* a part of what is left of the process has over 65,535 choices */
    LABS_REFUSAL_NO_SUCH_CHOICE = 13, /* the agent has no such choice */
    LABS_REFUSAL_GUARD_FAILS = 14, /* a guard of the choice does not hold */
    LABS_REFUSAL_EXPRESSION_ABSENT = 15, /* the choice's expression is absent */
    LABS_REFUSAL_CLOCK_AT_END = 16, /* a mark would be written at clock 65,535 */
    LABS_REFUSAL_RESIDUAL_TOO_LONG = 17, /* the choice leaves over 63 words */
    LABS_REFUSAL_KEY_NOT_IN_SET = 18, /* the key is not one to propagate, or to confirm */
    LABS_REFUSAL_SCHEDULE_LENGTH = 19, /* the schedule has not 2 + 5n bytes, or n is over 8,192 */
    LABS_REFUSAL_ANSWERS_SHORT = 20, /* fewer answer bytes than steps */
    LABS_REFUSAL_NO_SUCH_NAME = 21, /* the name is 0 or over 255, or not held on a restore or drop */
    LABS_REFUSAL_SHELF_FULL = 22 /* a new name, and all eight places are held */
};

/* ---- Calls ---- */

/* Checks a table, and makes state that of its fleet before any step. */
uint64_t labs_load(const uint8_t *table, size_t table_len, uint32_t *state, size_t state_len,
                   uint32_t *scratch, size_t scratch_len);

/* Does one step. The number is an act's choice, or the key of a propagate or confirm. It has 16 bits, to which C
 * cuts a wider argument: a choice above 65,535, which no agent has, must be told before the call. */
uint64_t labs_step(const uint8_t *table, size_t table_len, uint32_t *state, size_t state_len,
                   uint32_t *scratch, size_t scratch_len, uint8_t kind, uint16_t agent, uint16_t number);

/* Says what labs_step would do to state, which is only read: the answer is that of labs_step on a copy of it, and where
 * the step is done, next becomes that copy. next is of LABS_STATE_WORDS words; what they hold before is free. */
uint64_t labs_preview(const uint8_t *table, size_t table_len, const uint32_t *state, size_t state_len,
                      uint32_t *scratch, size_t scratch_len, uint8_t kind, uint16_t agent, uint16_t number,
                      uint32_t *next, size_t next_len);

/* Does each step of a schedule in turn, going on past refused ones, and writes a byte for each to answers: 0 if it is
 * done, or its refusal. Bytes of answers past the schedule's steps stay. The totals go to the first LABS_TOTALS words
 * of totals, or to all of them where there are fewer; words after them stay. */
uint64_t labs_run(const uint8_t *table, size_t table_len, uint32_t *state, size_t state_len,
                  uint32_t *scratch, size_t scratch_len, const uint8_t *schedule, size_t schedule_len,
                  uint8_t *answers, size_t answers_len, uint32_t *totals, size_t totals_len);

/* Saves state, which is only read, under a name: in place of what is saved under it, or, where it is a new one, at the
 * lowest free place. shelf is of LABS_SHELF_WORDS words; one whose names are all 0 holds nothing. */
uint64_t labs_save(const uint8_t *table, size_t table_len, const uint32_t *state, size_t state_len,
                   uint32_t *scratch, size_t scratch_len, uint32_t *shelf, size_t shelf_len, uint32_t name);

/* Makes state the one that is saved under a name, word for word. state is judged before, as by every call but
 * labs_load: a buffer that no load has written is refused. */
uint64_t labs_restore(const uint8_t *table, size_t table_len, uint32_t *state, size_t state_len,
                      uint32_t *scratch, size_t scratch_len, const uint32_t *shelf, size_t shelf_len, uint32_t name);

/* Makes the place of a name free: its name becomes 0, and its state words stay. */
uint64_t labs_drop(const uint8_t *table, size_t table_len, uint32_t *scratch, size_t scratch_len,
                   uint32_t *shelf, size_t shelf_len, uint32_t name);

#ifdef __cplusplus
}
#endif

#endif
