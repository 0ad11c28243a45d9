/* Rehearses the fleet in a file, a table and after it a schedule, as labs_show does, and says what labs_show does not:
 * which steps were refused, and why, and how many agents would take an entry that waits to be sent, as their first one
 * or over an older one. docs/FORMATS.md has the formats.
 * Status: 0 done, 1 a call refused, 2 no such file. */
#include "rehearsal.h"

#include <stdio.h>
#include <stdlib.h>

/* One byte more than the longest table and schedule. */
static uint8_t input[LABS_TABLE_BYTES(LABS_MAX_NODES) + LABS_SCHEDULE_BYTES(LABS_MAX_STEPS) + 1];
static uint8_t answers[LABS_MAX_STEPS];
static uint32_t state[LABS_STATE_WORDS], next[LABS_STATE_WORDS], scratch[LABS_SCRATCH_WORDS], totals[LABS_TOTALS];

static unsigned u16_at(const uint8_t *bytes)
{
    return bytes[0] | (unsigned)bytes[1] << 8;
}

static int refused(const char *call, uint64_t answer)
{
    if (LABS_IS_REFUSED(answer))
        printf("%s: refusal %u at %lu\n", call, LABS_REFUSAL(answer), (unsigned long)LABS_PLACE(answer));
    return LABS_IS_REFUSED(answer);
}

/* Says how many agents would take the entry, by a preview of the step that sends it; next is the state after that. */
static void say_takers(size_t table_len, const char *what, uint8_t kind, unsigned agent, unsigned key)
{
    uint64_t answer = labs_preview(input, table_len, state, LABS_STATE_WORDS, scratch, LABS_SCRATCH_WORDS,
                                   kind, (uint16_t)agent, (uint16_t)key, next, LABS_STATE_WORDS);
    if (refused("preview", answer))
        exit(1);
    printf(", to %s (would add %u replace %u)", what, LABS_STEP_ADDED(answer), LABS_STEP_REPLACED(answer));
}

int main(int argc, char **argv)
{
    static const char *const kinds[] = {"act", "propagate", "confirm"};
    FILE *file = argc == 2 ? fopen(argv[1], "rb") : NULL;
    size_t length = file ? fread(input, 1, sizeof input, file) : 0;
    if (!file || ferror(file)) {
        fprintf(stderr, "usage: %s FILE, with a table and a schedule that can be read\n", argv[0]);
        return 2;
    }
    fclose(file);

    /* The table is as long as its header says; the rest is the schedule. */
    size_t table_len = length < LABS_HEADER_BYTES ? length : LABS_TABLE_BYTES((size_t)u16_at(input));
    if (table_len > length)
        table_len = length;
    const uint8_t *schedule = input + table_len;

    if (refused("load", labs_load(input, table_len, state, LABS_STATE_WORDS, scratch, LABS_SCRATCH_WORDS)))
        return 1;
    uint64_t answer = labs_run(input, table_len, state, LABS_STATE_WORDS, scratch, LABS_SCRATCH_WORDS,
                               schedule, length - table_len, answers, sizeof answers, totals, LABS_TOTALS);
    if (refused("run", answer))
        return 1;
    unsigned added = totals[LABS_TOTAL_ADDED], replaced = totals[LABS_TOTAL_REPLACED];
    printf("done %u refused %u taken %u added %u replaced %u\n", (unsigned)totals[LABS_TOTAL_DONE],
           (unsigned)totals[LABS_TOTAL_REFUSED], added + replaced, added, replaced);

    unsigned steps = u16_at(schedule);
    for (unsigned i = 0; i < steps; i++) {
        const uint8_t *operand = schedule + LABS_SCHEDULE_OPERAND(steps, i);
        unsigned kind = schedule[LABS_SCHEDULE_KIND(i)];
        if (answers[i])
            printf("step %u (%s, agent %u, number %u): refusal %u\n", i, kind <= LABS_CONFIRM ? kinds[kind] : "no kind",
                   u16_at(operand), u16_at(operand + 2), (unsigned)answers[i]);
    }
    for (unsigned agent = 0; agent < state[LABS_AGENTS]; agent++) {
        for (unsigned key = 0; key < LABS_MAX_KEYS; key++) {
            unsigned stamp = state[LABS_ENTRY_STAMP(agent, key)];
            if (!stamp)
                continue;
            printf("agent %u key %u: value %d stamp %u writer %u", agent, key,
                   (int)(int32_t)state[LABS_ENTRY_VALUE(agent, key)], stamp,
                   (unsigned)state[LABS_ENTRY_WRITER(agent, key)]);
            if (state[LABS_ZC(agent)] >> key & 1)
                say_takers(table_len, "confirm", LABS_CONFIRM, agent, key);
            if (state[LABS_ZP(agent)] >> key & 1)
                say_takers(table_len, "propagate", LABS_PROPAGATE, agent, key);
            printf("\n");
        }
    }
    return 0;
}
