/* The survey gate: from a recipe to its condition, from a condition and a sheet to a verdict, and a
 * recipe's run; and old recipes in today's form. Each function is proved to equal its definition in
 * document 01, with document 02's Cards 1 to 5, for every input. docs/FORMATS.md has the files byte by byte,
 * docs/REFUSALS.md the refusals and the causes of holds, examples/gate.c a program.
 *
 * Slices. A slice is a pointer and a number of elements. With a length of 0 the pointer may be NULL,
 * since nothing is read or written through it. Bytes may stand at any address; scratch, `steps` and
 * `records` are aligned as uint64_t, and the last two are never NULL. Slices that are only read may
 * overlap each other; what is written to (`condition`, `log`, `scratch`, `steps`, `records`, and
 * `recipe` of gate_convert) overlaps nothing else.
 *
 * Answers. An answer's upper 32 bits are the number of the refusal, 1 to 16, or 0; its lower 32 bits
 * are then what each function says. After a refusal everything that is lent, but scratch, is as it was.
 *
 * Scratch. What is in it before a call does not matter; a call leaves some of its first gate_scratch()
 * words changed. The words from gate_scratch() on are as they were. The refusals 1 to 8
 * leave all of scratch as it was.
 *
 * Threads. The library keeps no state, takes no memory and reads no file. Any number of threads may
 * call at once, each with its own scratch and its own outputs; what is only read may be shared.
 *
 * Stack. A call takes less than 524,288 bytes of stack.
 */
#ifndef GATE_H
#define GATE_H

#include <stddef.h>
#include <stdint.h>

#ifdef __cplusplus
extern "C" {
#endif

/* Sizes. */
#define GATE_SCRATCH_WORDS 134350u /* words of scratch that serve every call: gate_scratch() */
#define GATE_CONDITION_BYTES 62024u /* the least bytes of a condition output; no condition is longer */
#define GATE_RECIPE_BYTES 8416u /* the longest recipe, and the least bytes of a recipe output */
#define GATE_SHEET_BYTES 33024u /* the longest sheet */
#define GATE_RECORD_BYTES 12u /* a record of a log */
#define GATE_CHOICE_BYTES 2u /* a choice */
#define GATE_STACK_BYTES 524288u /* the stack that is enough for every call */
#define GATE_MOST_FIELDS 32u
#define GATE_MOST_VARIABLES 64u
#define GATE_MOST_TRAYS 16u
#define GATE_MOST_CELLS 256u /* of a tray */
#define GATE_MOST_STATEMENTS 1024u
#define GATE_MOST_WRITTEN 16384u /* statements of a recipe with each call written out */
#define GATE_MOST_PARAMETERS 4u /* of a procedure */
#define GATE_MOST_CONJUNCTS 64u
#define GATE_MOST_NODES 120u /* of a conjunct */
#define GATE_MOST_READINGS 128u /* of a field */
#define GATE_MOST_COMBINATIONS 1048576u /* of a conjunct */

/* The verdict of gate_check: GATE_VERDICT of its answer. */
enum gate_verdict { GATE_PASS = 0, GATE_HELD = 1 };

/* Why gate_check holds a sheet: GATE_CAUSE of its answer. It is the cause of the first failure:
 * conjuncts in the condition's order; combinations of readings with the last atom's running fastest,
 * atoms by first appearance and readings as listed; within a combination the first step in postfix. */
enum gate_cause {
    GATE_TOO_BIG = 1, /* a result above its type's range */
    GATE_TOO_SMALL = 2, /* a result below its type's range */
    GATE_NO_DIVISOR = 3 /* a divisor of 0 */
};

/* The end of gate_run and gate_guarded; the last is of gate_guarded alone. */
enum gate_end {
    GATE_END_FINISHED = 0,
    GATE_END_STEP_LIMIT = 1,
    GATE_END_NO_READINGS = 2, /* a read of a field without readings */
    GATE_END_CHOICES_USED_UP = 3,
    GATE_END_LOG_FULL = 4,
    GATE_END_HELD = 5 /* the sheet is held, and nothing was run */
};

/* The refusals. */
enum gate_refusal {
    GATE_REFUSAL_ROOM = 1, /* too little room was lent */
    GATE_REFUSAL_RECIPE_TABLE = 2, /* the recipe's length or section table is wrong */
    GATE_REFUSAL_ENTRIES = 3, /* a section has too many entries */
    GATE_REFUSAL_DECLARATION = 4, /* a type code, a field's bits, a tray's length or its zero byte is wrong */
    GATE_REFUSAL_STATEMENT = 5, /* a statement's kind, operand or unused byte is wrong */
    GATE_REFUSAL_TYPES = 6, /* types disagree */
    GATE_REFUSAL_NUMBER = 7, /* a number does not fit its type */
    GATE_REFUSAL_BLOCKS = 8, /* blocks are unmatched or too deep */
    GATE_REFUSAL_NODES = 9, /* an expression on its way to a site has over 120 nodes */
    GATE_REFUSAL_CONJUNCTS = 10, /* there are over 64 expressions */
    GATE_REFUSAL_LOOP = 11, /* a loop makes a value from its own earlier value */
    GATE_REFUSAL_CONDITION = 12, /* the condition is damaged, or is no condition */
    GATE_REFUSAL_SHEET = 13, /* the sheet is damaged, has a reading beyond its bits, or belongs to another recipe */
    GATE_REFUSAL_COMBINATIONS = 14, /* a conjunct has over 1,048,576 combinations of readings */
    GATE_REFUSAL_BLANK = 15, /* a field that a conjunct reads has no readings */
    GATE_REFUSAL_PROCEDURES = 16 /* a procedure is wrong, or the calls written out are too long or too deep */
};

/* Of an answer: the number of the refusal, or 0; and what the function says where it is 0. */
#define GATE_REFUSED(answer) ((uint32_t)((uint64_t)(answer) >> 32))
#define GATE_VALUE(answer) ((uint32_t)(answer))

/* Of an answer of gate_check that is no refusal: the verdict; and the cause where it is GATE_HELD, else
 * 0. Compare these with the names above, not the whole answer: a hold is 1 plus 256 times the cause. */
#define GATE_VERDICT(answer) (GATE_VALUE(answer) & 255u)
#define GATE_CAUSE(answer) (GATE_VALUE(answer) >> 8)

/* Of a record, a pointer to its first byte: the site's label, whether a step of the value's making
 * overflowed (never behind the gate), and the value, sign extended if its type is signed. */
#define GATE_RECORD_LABEL(record) ((uint32_t)(record)[0] | (uint32_t)(record)[1] << 8)
#define GATE_RECORD_MARK(record) ((record)[2])
#define GATE_RECORD_VALUE(record) (GATE_WORD((record) + 4) | (uint64_t)GATE_WORD((record) + 8) << 32)
#define GATE_WORD(bytes) \
    ((uint32_t)(bytes)[0] | (uint32_t)(bytes)[1] << 8 | (uint32_t)(bytes)[2] << 16 | (uint32_t)(bytes)[3] << 24)

/* The least number of words of scratch, for every call: GATE_SCRATCH_WORDS. */
uint64_t gate_scratch(void);

/* Derives the recipe's condition. Gives its length in bytes; it stands at the start of `condition`, and
 * every byte past it is as it was. Wants GATE_CONDITION_BYTES and gate_scratch() words, else refuses
 * with 1; then 2 to 8, 16, and 9 to 11. */
uint64_t gate_derive(const uint8_t *recipe, size_t recipe_length,
                     uint8_t *condition, size_t condition_length,
                     uint64_t *scratch, size_t scratch_length);

/* Gives 0 if the sheet passes under the condition; if it is held, 1 plus 256 times the cause (1 too
 * big, 2 too small, 3 no divisor), which GATE_VERDICT and GATE_CAUSE take apart; or refuses with 12 to
 * 15, tested in the order 12, 13, 15, 14: 15 in every conjunct before 14 in any, and 14 in every one
 * before any step is worked. A field that no conjunct reads may have no readings. Writes nothing. The
 * condition must be the recipe's own: the gate cannot know from which recipe it came. */
uint64_t gate_check(const uint8_t *condition, size_t condition_length,
                    const uint8_t *sheet, size_t sheet_length);

/* Runs the recipe on the sheet for at most `limit` steps. `choices` has 2 bytes, little-endian, for each
 * read: which reading of its field it takes, modulo their number; an odd last byte is passed over.
 * Gives the end. The records, GATE_RECORD_BYTES each, stand at the start of `log`, which may have any
 * length, and every byte past them is as it was; the numbers of steps and of records go to `steps` and
 * `records`, which a refusal leaves as they were. A call is one step besides those of its body, and a
 * record has the label that its site has in the recipe. Wants gate_scratch() words, else refuses with
 * 1; then 2 to 8, 16 and 13. */
uint64_t gate_run(const uint8_t *recipe, size_t recipe_length,
                  const uint8_t *sheet, size_t sheet_length, uint32_t limit,
                  const uint8_t *choices, size_t choices_length,
                  uint8_t *log, size_t log_length,
                  uint64_t *scratch, size_t scratch_length,
                  uint64_t *steps, uint64_t *records);

/* Derives the recipe's condition and runs the recipe only if the sheet passes under it. Gives the end
 * as gate_run, with `log`, `steps` and `records` as there and the condition as gate_derive writes it;
 * or GATE_END_HELD where the sheet is held (gate_check tells the cause), and then everything lent but
 * scratch is as it was. Wants GATE_CONDITION_BYTES and gate_scratch() words, else refuses with 1; then
 * 2 to 8, 16, 9 to 11 and 13 to 15. No record that it writes is marked, and each is the whole number
 * of the exact run. */
uint64_t gate_guarded(const uint8_t *recipe, size_t recipe_length,
                      const uint8_t *sheet, size_t sheet_length, uint32_t limit,
                      const uint8_t *choices, size_t choices_length,
                      uint8_t *log, size_t log_length,
                      uint8_t *condition, size_t condition_length,
                      uint64_t *scratch, size_t scratch_length,
                      uint64_t *steps, uint64_t *records);

/* Converts a recipe of the form before document 02's Card 5, whose fields are types alone and which has
 * at most 8,384 bytes, to today's form: its fields get all bits of their types, and the sections after
 * them their new offsets. Gives its length in bytes; it stands at the start of `recipe`, and every byte
 * past it is as it was. Wants GATE_RECIPE_BYTES and gate_scratch() words, else refuses with 1; then 2 to
 * 8 and 16 by the old form. What only gate_derive refuses, with 9 to 11, is converted. */
uint64_t gate_convert(const uint8_t *old, size_t old_length,
                      uint8_t *recipe, size_t recipe_length,
                      uint64_t *scratch, size_t scratch_length);

#ifdef __cplusplus
}
#endif

#endif
