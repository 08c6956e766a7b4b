/* Prints the line of an own number among the accession records below. Compiled as examples/kept.c, for which README.md has the command.
   Run it as `line OWN`, for instance with 4. */
#include <inttypes.h>
#include <stdio.h>
#include <stdlib.h>

#include "jenwyllt.h"

#define RECORDS 5

/* Own number, map, day, number superseded: three records of map 7 and two of map 9. */
static const uint64_t records[JENWYLLT_ACCESSION_NUMBERS * RECORDS] = {
    1, 7, 10, 0,
    2, 9, 3, 0,
    4, 7, 10, 1,
    9, 7, 12, 4,
    10, 9, 3, 2,
};

int main(int words, char **word) {
    uint64_t own = words == 2 ? strtoull(word[1], NULL, 10) : 0;
    uint64_t line[JENWYLLT_ACCESSION_NUMBERS * RECORDS];
    struct jenwyllt_answer answer = jenwyllt_report_line(records, JENWYLLT_ACCESSION_NUMBERS * RECORDS, own, line, JENWYLLT_ACCESSION_NUMBERS * RECORDS);
    if (answer.number != JENWYLLT_ACCEPTED) {
        printf("refused %" PRIu64 " at %" PRIu64 "\n", answer.number, answer.value);
        return 1;
    }
    printf("%" PRIu64 " records in the line of %" PRIu64 "\n", answer.value, own);
    for (const uint64_t *record = line; record < line + JENWYLLT_ACCESSION_NUMBERS * answer.value; record += JENWYLLT_ACCESSION_NUMBERS)
        printf("%" PRIu64 " on day %" PRIu64 ", supersedes %" PRIu64 "\n", record[0], record[2], record[3]);
    return 0;
}
