/* gate RECIPE SHEET [CHOICE ...]: derives the recipe's condition, puts the sheet to it and, if it
 * passes, runs the recipe and prints its records. The choices say which reading each read takes.
 * Exit status as of survey-gate: 0 pass, 1 held, 2 refused, 3 trouble.
 *
 *     cc examples/gate.c $(pkg-config --cflags --libs gate) -o gate
 */
#include <gate.h>
#include <inttypes.h>
#include <stdio.h>
#include <stdlib.h>

enum { LIMIT = 10000, MOST_CHOICES = 1000, MOST_RECORDS = 1000 };

/* One byte more than the longest file of its kind: a longer one is read as too long, and refused. */
static uint8_t recipe[GATE_RECIPE_BYTES + 1], sheet[GATE_SHEET_BYTES + 1];
static uint8_t condition[GATE_CONDITION_BYTES];
static uint8_t choices[MOST_CHOICES * GATE_CHOICE_BYTES], records[MOST_RECORDS * GATE_RECORD_BYTES];
static uint64_t scratch[GATE_SCRATCH_WORDS];

static size_t load(const char *name, uint8_t *bytes, size_t room) {
    FILE *file = fopen(name, "rb");
    size_t length = file ? fread(bytes, 1, room, file) : 0;
    if (!file || ferror(file)) {
        perror(name);
        exit(3);
    }
    fclose(file);
    return length;
}

static const char *cause(uint32_t number) {
    switch (number) {
    case GATE_TOO_BIG:
        return "too big";
    case GATE_TOO_SMALL:
        return "too small";
    default:
        return "no divisor";
    }
}

/* What an answer says; a refusal ends the program. */
static uint32_t taken(const char *name, uint64_t answer) {
    if (GATE_REFUSED(answer)) {
        printf("%s: refused %" PRIu32 "\n", name, GATE_REFUSED(answer));
        exit(2);
    }
    return GATE_VALUE(answer);
}

int main(int count, char **words) {
    size_t recipe_length, condition_length, sheet_length, at, reads = count < 3 ? 0 : (size_t)count - 3;
    uint64_t steps, number;
    uint32_t verdict, end;
    if (count < 3 || reads > MOST_CHOICES) {
        fprintf(stderr, "usage: %s RECIPE SHEET [CHOICE ...], at most %d choices\n", words[0], MOST_CHOICES);
        return 3;
    }
    recipe_length = load(words[1], recipe, sizeof recipe);
    sheet_length = load(words[2], sheet, sizeof sheet);
    for (at = 0; at < reads; at++) {
        char *rest;
        unsigned long choice = strtoul(words[at + 3], &rest, 10);
        if (*rest || choice > UINT16_MAX) {
            fprintf(stderr, "%s: no choice; a choice is a number from 0 to 65535\n", words[at + 3]);
            return 3;
        }
        choices[2 * at] = (uint8_t)choice;
        choices[2 * at + 1] = (uint8_t)(choice >> 8);
    }

    condition_length = taken(words[1], gate_derive(recipe, recipe_length, condition, sizeof condition,
                                                   scratch, GATE_SCRATCH_WORDS));
    verdict = taken(words[2], gate_check(condition, condition_length, sheet, sheet_length));
    if (GATE_VERDICT(verdict) != GATE_PASS) {
        printf("%s: held %s\n", words[2], cause(GATE_CAUSE(verdict)));
        return 1;
    }
    end = taken(words[2], gate_run(recipe, recipe_length, sheet, sheet_length, LIMIT, choices, 2 * reads,
                                   records, sizeof records, scratch, GATE_SCRATCH_WORDS, &steps, &number));
    printf("%s: pass; end %" PRIu32 " after %" PRIu64 " steps\n", words[2], end, steps);
    for (at = 0; at < number; at++) {
        const uint8_t *record = records + at * GATE_RECORD_BYTES;
        printf("label %" PRIu32 ": %" PRIu64 "\n", GATE_RECORD_LABEL(record), GATE_RECORD_VALUE(record));
    }
    return 0;
}
