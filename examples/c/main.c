/* Reads expressions of both syntaxes, matches some dates, searches a text, steps through another, answers for lines, makes a
 * table of steps, shows places, takes an old list, picks lines, and checks rules as an editor would. */
#include <stdio.h>
#include <string.h>

#include "foamlattice.h"

static const uint8_t *bytes(const char *text) { return (const uint8_t *)text; }

/* An expression that was read owns its records and its classes. */
struct expression {
    uint8_t records[FOAM_MOST_RECORD_BYTES], classes[FOAM_MOST_CLASS_BYTES];
    size_t records_length, classes_length;
};

/* Reads an expression of the second syntax: the answer says how many records and classes were written. */
static uint64_t read_second(const char *text, struct expression *e) {
    uint64_t answer = foam_read2(bytes(text), strlen(text), e->records, sizeof e->records, e->classes, sizeof e->classes);
    if (foam_number(answer) == 0) {
        e->records_length = FOAM_RECORD_SIZE * foam_x(answer);
        e->classes_length = FOAM_CLASS_SIZE * foam_classes(answer);
    }
    return answer;
}

static const char *yes_or_no(int yes) { return yes ? "yes" : "no"; }

/* Many lines in one call, a byte of the answers for each; and the same by a table of steps, which is made once and kept: a byte
 * of text then costs two loads. 1,024 entries and 1,024 words of room are enough for most rules. */
static void answer_lines(const struct expression *e, const char *text) {
    static uint16_t table[1024];
    static uint64_t room[1024];
    uint8_t answers[3];
    uint64_t answer = foam_lines(e->records, e->records_length, e->classes, e->classes_length, bytes(text), strlen(text),
                                 answers, sizeof answers);
    printf("lines: %zu, yes: %zu\n", foam_x(answer), foam_y(answer));
    answer = foam_table(e->records, e->records_length, e->classes, e->classes_length, table, 1024, room, 1024);
    if (!foam_flag(answer)) return; /* it does not fit: go on by the list */
    size_t entries = foam_y(answer);
    printf("a table of states: %zu, entries: %zu\n", foam_x(answer), entries);
    printf("by the table: 02-29 %s\n", yes_or_no(foam_flag(foam_match_table(table, entries, bytes("02-29"), 5))));
    answer = foam_lines_table(table, entries, bytes(text), strlen(text), answers, sizeof answers);
    for (size_t i = 0; i < foam_x(answer); i++) printf("line %zu %s\n", i, yes_or_no(answers[i]));
}

int main(void) {
    static struct expression february;
    const char *written = "02-[0-2][0-9]";
    uint64_t answer = read_second(written, &february);
    if (foam_number(answer) != 0) {
        printf("refused %u at %zu: %s\n", foam_number(answer), foam_x(answer), foam_refusal_text(foam_number(answer)));
        return 1;
    }
    printf("%s has records: %zu, pieces: %zu, classes: %zu\n", written, foam_x(answer), foam_pieces(answer),
           foam_classes(answer));
    const uint8_t *records = february.records, *classes = february.classes;
    size_t records_length = february.records_length, classes_length = february.classes_length;

    /* Match: whole lines. The classes are lent after the records. */
    const char *lines[] = {"02-28", "02-29", "03-01"};
    for (size_t i = 0; i < sizeof lines / sizeof *lines; i++) {
        answer = foam_match(records, records_length, classes, classes_length, bytes(lines[i]), strlen(lines[i]));
        printf("%s %s\n", lines[i], foam_flag(answer) ? "yes" : "no");
    }

    /* Search: the earliest start, then the furthest end. */
    const char *text = "from 02-28 to 03-01";
    answer = foam_search(records, records_length, classes, classes_length, bytes(text), strlen(text));
    if (foam_flag(answer))
        printf("found %.*s from %zu to %zu\n", (int)(foam_y(answer) - foam_x(answer)), text + foam_x(answer), foam_x(answer),
               foam_y(answer));

    /* Step: the marks are yours to keep, and after a start each step says whether the bytes so far match, and whether nothing
     * is left: then no text that begins so matches, and the rest need not be read. */
    uint64_t words[FOAM_MOST_WORDS];
    const char *texts[] = {"02-29", "03-01"};
    for (size_t i = 0; i < sizeof texts / sizeof *texts; i++) {
        foam_start(records, records_length, classes, classes_length, words, FOAM_MOST_WORDS);
        for (const char *at = texts[i]; *at != 0; at++) {
            answer = foam_step(records, records_length, classes, classes_length, words, FOAM_MOST_WORDS, (uint8_t)*at);
            printf("after %c: %s\n", *at, foam_flag(answer) ? "yes" : "no");
            if (foam_x(answer) == 1) {
                printf("nothing is left\n");
                break;
            }
        }
    }

    answer_lines(&february, "02-28\n02-29\r\n03-01\n");

    /* The first syntax has no classes: its lists take a class buffer of length 0. */
    static uint8_t list[FOAM_MOST_RECORD_BYTES];
    answer = foam_read(bytes("02-2(8|9)"), 9, list, sizeof list);
    answer = foam_match(list, FOAM_RECORD_SIZE * foam_x(answer), classes, 0, bytes("02-29"), 5);
    printf("02-2(8|9) in the first syntax: 02-29 %s\n", foam_flag(answer) ? "yes" : "no");

    /* Places: bytes 8 and 9 of a record, the low one first, say which byte of the expression made its node. */
    printf("places of its nodes:");
    for (size_t at = 0; at < records_length; at += FOAM_RECORD_SIZE) printf(" %u", records[at + 8] + 256u * records[at + 9]);
    printf("\n");

    /* A list of the layout that had no places, as an archive may hold it: each of its records was the first 8 bytes of
     * today's. */
    static uint8_t old[FOAM_MOST_RECORD_BYTES];
    size_t count = records_length / FOAM_RECORD_SIZE;
    for (size_t i = 0; i < count; i++)
        memcpy(old + FOAM_OLD_RECORD_SIZE * i, records + FOAM_RECORD_SIZE * i, FOAM_OLD_RECORD_SIZE);
    answer = foam_widen(old, FOAM_OLD_RECORD_SIZE * count, list, sizeof list);
    answer = foam_match(list, FOAM_RECORD_SIZE * foam_x(answer), classes, classes_length, bytes("02-29"), 5);
    printf("an old list of %zu bytes: 02-29 %s\n", FOAM_OLD_RECORD_SIZE * count, foam_flag(answer) ? "yes" : "no");

    /* Pick: an expression of the first syntax and its texts, a line each; the answer says how long the output is. */
    static uint8_t output[FOAM_MOST_OUTPUT];
    const char *input = "02-2(8|9)\n02-28\n02-29\n03-01\n";
    answer = foam_pick(bytes(input), strlen(input), output, sizeof output);
    printf("%.*s", (int)foam_x(answer), (const char *)output);

    /* A rule editor: a check lends nothing; it counts, or has the place of the fault and its number, to be shown under it in words. */
    const char *rules[] = {"02-2[89]", "02-2(8|9", "02-[9-0]"};
    for (size_t i = 0; i < sizeof rules / sizeof *rules; i++) {
        answer = foam_check2(bytes(rules[i]), strlen(rules[i]));
        printf("%s\n", rules[i]);
        if (foam_number(answer) == 0)
            printf("good, classes: %zu\n", foam_classes(answer));
        else
            printf("%*s %s\n", (int)foam_x(answer) + 1, "^", foam_refusal_text(foam_number(answer)));
    }
    return 0;
}
