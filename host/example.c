/* A complete host of the judgement: `example CASE PROPOSAL` reads two files, judges them and prints the answer;
 * `example CASE PROPOSAL FAMILIES` does so with a family list. The status is 0 if the hour is accepted, 1 if it is
 * refused, 2 if it could not be judged or the answer could not be printed.
 *
 *     cc example.c $(pkg-config --cflags --libs lta_judgement) -o example
 */
#include "lta_judgement.h"
#include "read_file.h"

#include <errno.h>
#include <inttypes.h>
#include <stdbool.h>
#include <stdio.h>
#include <string.h>

enum status { ACCEPTED, REFUSED, NOT_JUDGED };

static void print_report(const uint8_t *report)
{
    printf("welfare %" PRId64 " microcents\n", lta_report_welfare(report));
    printf("bound %" PRId64 " microcents\n", lta_report_bound(report));
    printf("gap %" PRId64 " microcents\n", lta_report_gap(report));
    printf("rent %" PRId64 " microcents\n", lta_report_rent(report));
    printf("owed %" PRId64 " microcents\n", lta_report_owed(report));
    for (size_t zone = 0; zone < lta_report_zones(report); zone++)
        printf("price %zu %" PRId64 " grains\n", zone, lta_report_price(report, zone));
}

int main(int count, char **words)
{
    struct hour_files hour;
    uint8_t families[LTA_FAMILIES_ROOM + 1], report[LTA_REPORT_ROOM];
    size_t families_length = 0;
    uint64_t verdict = 0;
    if (count != 3 && count != 4) {
        fprintf(stderr, "usage: example CASE PROPOSAL [FAMILIES]\n");
        return NOT_JUDGED;
    }
    bool with_families = count == 4;
    if (!read_hour("example", words[1], words[2], &hour) ||
        (with_families && !read_file("example", words[3], families, sizeof families, &families_length)))
        return NOT_JUDGED;

    /* An empty list is refused, so without families the other entry is called. */
    if (with_families)
        verdict = lta_judge_families(hour.case_bytes, hour.case_length, hour.proposal, hour.proposal_length,
                                     families, families_length, report, sizeof report);
    else
        verdict = lta_judge(hour.case_bytes, hour.case_length, hour.proposal, hour.proposal_length, report, sizeof report);

    uint32_t number = LTA_NUMBER(verdict);
    printf("verdict %" PRIu32 " %" PRIu32 "\n", number, LTA_INDEX(verdict));
    if (number == LTA_ACCEPTED || number == LTA_GAP_ABOVE_TOLERANCE)
        print_report(report);
    if (fflush(stdout) != 0) {
        fprintf(stderr, "example: cannot print: %s\n", strerror(errno));
        return NOT_JUDGED;
    }
    return number == LTA_ACCEPTED ? ACCEPTED : REFUSED;
}
