/* What include/gate.h says of lent slices and of verdicts, through the library: NULL with length 0, odd
 * addresses, overlap of what is read, scratch before and after, threads; each cause of a hold; readings
 * at the ends of their bits; a conversion. Prints nothing if all of it is so. */
#undef NDEBUG
#include <assert.h>
#include <gate.h>
#include <pthread.h>
#include <string.h>

enum { MARK = 0xA5, SPARE = 8, ROOM = GATE_SCRATCH_WORDS + SPARE, LIMIT = 100 };

/* A recipe of nothing, whose condition has no conjunct and whose sheet is empty. */
static const uint8_t nothing[32] = {32, 0, 0, 0, 0, 0, 0, 0, 32, 0, 0, 0, 0, 0, 0, 0,
                                    32, 0, 0, 0, 0, 0, 0, 0, 32, 0, 0, 0, 0, 0, 0, 0};
/* The same with one statement, an end without a block: refused with 8. */
static const uint8_t unmatched[40] = {32, 0, 0, 0, 0, 0, 0, 0, 32, 0, 0, 0, 0, 0, 0, 0,
                                      32, 0, 0, 0, 0, 0, 0, 0, 32, 0, 0, 0, 8, 0, 0, 0,
                                      13, 0, 0, 0, 0, 0, 0, 0};
/* field f u8; var x u8; x = read f; x = x + x; site x. Byte 33 is 128 plus the 8 bits of the field. */
static const uint8_t doubled[59] = {32, 0, 0, 0, 2, 0, 0, 0, 34, 0, 0, 0, 1, 0, 0, 0,
                                    35, 0, 0, 0, 0, 0, 0, 0, 35, 0, 0, 0, 24, 0, 0, 0,
                                    0, 136, 0, 7, 0, 0, 0, 0, 0, 0, 0, 2, 0, 0, 0, 0, 0, 0, 0,
                                    10, 0, 0, 0, 0, 0, 0, 0};
/* The same in the old form. */
static const uint8_t old_doubled[58] = {32, 0, 0, 0, 1, 0, 0, 0, 33, 0, 0, 0, 1, 0, 0, 0,
                                        34, 0, 0, 0, 0, 0, 0, 0, 34, 0, 0, 0, 24, 0, 0, 0,
                                        0, 0, 7, 0, 0, 0, 0, 0, 0, 0, 2, 0, 0, 0, 0, 0, 0, 0,
                                        10, 0, 0, 0, 0, 0, 0, 0};
/* Readings 100 and 127, whose doubles fit, and 128, whose double does not; and no reading. */
static const uint8_t passing[10] = {8, 0, 0, 0, 2, 0, 0, 0, 100, 127};
static const uint8_t holding[9] = {8, 0, 0, 0, 1, 0, 0, 0, 128};
static const uint8_t blank[8] = {8, 0, 0, 0, 0, 0, 0, 0};

struct lent {
    uint8_t condition[GATE_CONDITION_BYTES];
    uint8_t recipe[GATE_RECIPE_BYTES];
    uint8_t log[2 * GATE_RECORD_BYTES];
    uint64_t scratch[ROOM], steps, records;
};
static struct lent all_lent[3];

static int marked(const void *bytes, size_t length) {
    const uint8_t *byte = (const uint8_t *)bytes;
    while (length && byte[length - 1] == MARK)
        length--;
    return length == 0;
}

static uint64_t derive(struct lent *d, const uint8_t *recipe, size_t length) {
    return gate_derive(recipe, length, d->condition, sizeof d->condition, d->scratch, ROOM);
}

static uint64_t convert(struct lent *d, const uint8_t *old, size_t length) {
    return gate_convert(old, length, d->recipe, sizeof d->recipe, d->scratch, ROOM);
}

static uint64_t run(struct lent *d, const uint8_t *recipe, size_t length, const uint8_t *sheet, size_t sheet_length) {
    return gate_run(recipe, length, sheet, sheet_length, LIMIT, NULL, 0, NULL, 0, d->scratch, ROOM, &d->steps,
                    &d->records);
}

static uint64_t guarded(struct lent *d, const uint8_t *recipe, size_t length, const uint8_t *sheet, size_t sheet_length,
                        const uint8_t *choices, size_t choices_length) {
    return gate_guarded(recipe, length, sheet, sheet_length, LIMIT, choices, choices_length, d->log, sizeof d->log,
                        d->condition, sizeof d->condition, d->scratch, ROOM, &d->steps, &d->records);
}

static void null_with_length_0(struct lent *d) {
    uint64_t length = derive(d, nothing, sizeof nothing);
    assert(length == 8);
    assert(gate_check(d->condition, length, NULL, 0) == GATE_PASS);
    assert(GATE_REFUSED(gate_check(NULL, 0, NULL, 0)) == GATE_REFUSAL_CONDITION);
    assert(run(d, nothing, sizeof nothing, NULL, 0) == GATE_END_FINISHED && d->steps == 0 && d->records == 0);
    assert(guarded(d, nothing, sizeof nothing, NULL, 0, NULL, 0) == GATE_END_FINISHED);
    assert(GATE_REFUSED(derive(d, NULL, 0)) == GATE_REFUSAL_RECIPE_TABLE);
    assert(GATE_REFUSED(convert(d, NULL, 0)) == GATE_REFUSAL_RECIPE_TABLE);
    assert(GATE_REFUSED(run(d, NULL, 0, NULL, 0)) == GATE_REFUSAL_RECIPE_TABLE);
    assert(GATE_REFUSED(guarded(d, NULL, 0, NULL, 0, NULL, 0)) == GATE_REFUSAL_RECIPE_TABLE);
    assert(GATE_REFUSED(gate_derive(nothing, sizeof nothing, NULL, 0, NULL, 0)) == GATE_REFUSAL_ROOM);
    assert(GATE_REFUSED(gate_convert(nothing, sizeof nothing, NULL, 0, NULL, 0)) == GATE_REFUSAL_ROOM);
    assert(GATE_REFUSED(gate_run(NULL, 0, NULL, 0, 0, NULL, 0, NULL, 0, NULL, 0, &d->steps, &d->records)) ==
           GATE_REFUSAL_ROOM);
    assert(GATE_REFUSED(gate_guarded(NULL, 0, NULL, 0, 0, NULL, 0, NULL, 0, NULL, 0, NULL, 0, &d->steps,
                                     &d->records)) == GATE_REFUSAL_ROOM);
}

/* Everything that a refusal leaves as it was, scratch among it. */
static void refusals_leave_all(struct lent *d) {
    memset(d, MARK, sizeof *d);
    assert(GATE_REFUSED(derive(d, unmatched, sizeof unmatched)) == GATE_REFUSAL_BLOCKS);
    assert(GATE_REFUSED(run(d, unmatched, sizeof unmatched, NULL, 0)) == GATE_REFUSAL_BLOCKS);
    assert(GATE_REFUSED(guarded(d, unmatched, sizeof unmatched, NULL, 0, NULL, 0)) == GATE_REFUSAL_BLOCKS);
    assert(GATE_REFUSED(convert(d, unmatched, sizeof unmatched)) == GATE_REFUSAL_BLOCKS);
    assert(GATE_REFUSED(convert(d, doubled, sizeof doubled)) == GATE_REFUSAL_DECLARATION);
    assert(GATE_REFUSED(gate_derive(nothing, sizeof nothing, d->condition, sizeof d->condition, d->scratch,
                                    GATE_SCRATCH_WORDS - 1)) == GATE_REFUSAL_ROOM);
    assert(GATE_REFUSED(gate_convert(nothing, sizeof nothing, d->recipe, sizeof d->recipe, d->scratch,
                                     GATE_SCRATCH_WORDS - 1)) == GATE_REFUSAL_ROOM);
    assert(GATE_REFUSED(gate_convert(nothing, sizeof nothing, d->recipe, GATE_RECIPE_BYTES - 1, d->scratch,
                                     ROOM)) == GATE_REFUSAL_ROOM);
    assert(marked(d, sizeof *d));
}

/* Whether everything lent is as it was, but the words of scratch that a call may change. */
static int outputs_marked(const struct lent *d) {
    return marked(d->condition, sizeof d->condition) && marked(d->recipe, sizeof d->recipe) &&
           marked(d->log, sizeof d->log) &&
           marked(&d->steps, sizeof d->steps) && marked(&d->records, sizeof d->records) &&
           marked(d->scratch + GATE_SCRATCH_WORDS, SPARE * sizeof *d->scratch);
}

/* A constant, an operation (2 add, 3 subtract, 5 divide) and a reading, all u8, with verdict and cause. */
static const struct {
    uint8_t constant, operation, reading, verdict, cause;
} steps[] = {
    {200, 2, 55, GATE_PASS, 0}, {200, 2, 56, GATE_HELD, GATE_TOO_BIG},
    {1, 3, 1, GATE_PASS, 0}, {1, 3, 2, GATE_HELD, GATE_TOO_SMALL},
    {1, 5, 1, GATE_PASS, 0}, {1, 5, 0, GATE_HELD, GATE_NO_DIVISOR},
};

static void verdicts_and_causes(void) {
    uint8_t condition[42] = {1, 0, 0, 0, 1, 0, 0, 0, 0, 136, 18, 0, 0, 0, 24};
    uint8_t sheet[9] = {8, 0, 0, 0, 1};
    size_t at;
    condition[26] = condition[30] = 1; /* the first reading of the field */
    for (at = 0; at < sizeof steps / sizeof *steps; at++) {
        uint64_t answer;
        condition[22] = steps[at].constant;
        condition[34] = steps[at].operation;
        sheet[8] = steps[at].reading;
        answer = gate_check(condition, sizeof condition, sheet, sizeof sheet);
        assert(GATE_REFUSED(answer) == 0 && answer == steps[at].verdict + 256u * steps[at].cause);
        assert(GATE_VERDICT(answer) == steps[at].verdict && GATE_CAUSE(answer) == steps[at].cause);
    }
}

/* A field of u8 with so many bits, and readings that they hold or not. */
static void readings_in_their_bits(void) {
    uint8_t condition[10] = {0, 0, 0, 0, 1, 0, 0, 0, 0, 0};
    uint8_t sheet[9] = {8, 0, 0, 0, 1};
    int bits, reading;
    for (bits = 1; bits <= 8; bits++) {
        condition[9] = (uint8_t)(128 + bits);
        for (reading = 0; reading < 256; reading++) {
            uint64_t answer;
            sheet[8] = (uint8_t)reading;
            answer = gate_check(condition, sizeof condition, sheet, sizeof sheet);
            if (reading >> bits)
                assert(GATE_REFUSED(answer) == GATE_REFUSAL_SHEET);
            else
                assert(answer == GATE_PASS);
        }
    }
    condition[9] = 137;
    assert(GATE_REFUSED(gate_check(condition, sizeof condition, sheet, sizeof sheet)) == GATE_REFUSAL_CONDITION);
}

/* The new recipe stands at the start, and all else but scratch is as it was. */
static void conversion(struct lent *d) {
    memset(d, MARK, sizeof *d);
    assert(convert(d, old_doubled, sizeof old_doubled) == sizeof doubled);
    assert(memcmp(d->recipe, doubled, sizeof doubled) == 0);
    memset(d->recipe, MARK, sizeof doubled);
    assert(outputs_marked(d));
    assert(convert(d, nothing, sizeof nothing) == sizeof nothing);
    assert(memcmp(d->recipe, nothing, sizeof nothing) == 0);
    assert(GATE_REFUSED(derive(d, old_doubled, sizeof old_doubled)) == GATE_REFUSAL_RECIPE_TABLE);
}

static void hold_leaves_outputs(struct lent *d) {
    memset(d, MARK, sizeof *d);
    assert(guarded(d, doubled, sizeof doubled, holding, sizeof holding, passing, 2) == GATE_END_HELD);
    assert(outputs_marked(d));
}

/* A blank field refuses the check and the guarded run, and only ends a run. */
static void blank_leaves_outputs(struct lent *d) {
    uint64_t length = derive(d, doubled, sizeof doubled);
    assert(GATE_REFUSED(gate_check(d->condition, length, blank, sizeof blank)) == GATE_REFUSAL_BLANK);
    memset(d, MARK, sizeof *d);
    assert(GATE_REFUSED(guarded(d, doubled, sizeof doubled, blank, sizeof blank, passing, 2)) == GATE_REFUSAL_BLANK);
    assert(outputs_marked(d));
    assert(run(d, doubled, sizeof doubled, blank, sizeof blank) == GATE_END_NO_READINGS);
    assert(d->steps == 0 && d->records == 0);
}

/* Bytes at every address modulo 8; the sheet's bytes are the choices too. */
static void odd_addresses_and_overlap(struct lent *d) {
    uint8_t recipe[sizeof doubled + 8], sheet[sizeof passing + 8];
    size_t shift;
    for (shift = 0; shift < 8; shift++) {
        memcpy(recipe + shift, doubled, sizeof doubled);
        memcpy(sheet + shift, passing, sizeof passing);
        memset(d->log, MARK, sizeof d->log);
        assert(guarded(d, recipe + shift, sizeof doubled, sheet + shift, sizeof passing, sheet + shift,
                       sizeof passing) == GATE_END_FINISHED);
        assert(d->steps == 3 && d->records == 1 && GATE_RECORD_LABEL(d->log) == 2);
        assert(GATE_RECORD_MARK(d->log) == 0 && GATE_RECORD_VALUE(d->log) == 200);
        assert(marked(d->log + GATE_RECORD_BYTES, GATE_RECORD_BYTES));
    }
}

static void *often(void *mine) {
    int times;
    for (times = 0; times < 200; times++) {
        odd_addresses_and_overlap((struct lent *)mine);
        hold_leaves_outputs((struct lent *)mine);
    }
    return NULL;
}

static void threads_with_scratch_each(void) {
    pthread_t others[2];
    int n;
    for (n = 0; n < 2; n++)
        assert(pthread_create(&others[n], NULL, often, &all_lent[n + 1]) == 0);
    often(&all_lent[0]);
    for (n = 0; n < 2; n++)
        assert(pthread_join(others[n], NULL) == 0);
}

int main(void) {
    assert(gate_scratch() == GATE_SCRATCH_WORDS);
    null_with_length_0(&all_lent[0]);
    refusals_leave_all(&all_lent[0]);
    verdicts_and_causes();
    readings_in_their_bits();
    conversion(&all_lent[0]);
    blank_leaves_outputs(&all_lent[0]);
    threads_with_scratch_each();
    return 0;
}
