/* A host of the judgement that judges a day: `day CASE PROPOSAL [CASE PROPOSAL ..]` judges each pair of files and
 * prints a line for it: the case's name, number, index and what the number means, and for 0 and 26 gap, rent and owed
 * in euros. The last line counts. The status is 0 if every hour is accepted, 1 if one is refused, 2 if one could not
 * be judged or the answer could not be printed. An hour that cannot be read is named, and the hours after it are
 * still judged.
 *
 *     cc day.c $(pkg-config --cflags --libs lta_judgement) -o day
 */
#include "lta_judgement.h"
#include "read_file.h"

#include <errno.h>
#include <inttypes.h>
#include <stdio.h>
#include <string.h>

enum status { ACCEPTED, REFUSED, NOT_JUDGED };

struct tally {
    unsigned accepted, refused, not_judged;
};

/* An amount in euros, with eight decimals: the last is a microcent. */
static void print_euros(const char *name, int64_t microcents)
{
    uint64_t size = microcents < 0 ? 0 - (uint64_t)microcents : (uint64_t)microcents;
    printf(" %s %s%" PRIu64 ".%08" PRIu64, name, microcents < 0 ? "-" : "", size / LTA_MICROCENTS_PER_EURO,
           size % LTA_MICROCENTS_PER_EURO);
}

static void print_hour(const char *name, uint64_t verdict, const uint8_t *report)
{
    uint32_t number = LTA_NUMBER(verdict);
    printf("%s %" PRIu32 " %" PRIu32 " %s", name, number, LTA_INDEX(verdict), lta_number_text(number));
    if (number == LTA_ACCEPTED || number == LTA_GAP_ABOVE_TOLERANCE) {
        print_euros("gap", lta_report_gap(report));
        print_euros("rent", lta_report_rent(report));
        print_euros("owed", lta_report_owed(report));
    }
    putchar('\n');
}

static enum status judge_hour(const char *case_name, const char *proposal_name)
{
    struct hour_files hour;
    uint8_t report[LTA_REPORT_ROOM];
    if (!read_hour("day", case_name, proposal_name, &hour))
        return NOT_JUDGED;
    uint64_t verdict = lta_judge(hour.case_bytes, hour.case_length, hour.proposal, hour.proposal_length, report, sizeof report);
    print_hour(case_name, verdict, report);
    return LTA_NUMBER(verdict) == LTA_ACCEPTED ? ACCEPTED : REFUSED;
}

int main(int count, char **words)
{
    struct tally tally = {0, 0, 0};
    if (count < 3 || count % 2 == 0) {
        fprintf(stderr, "usage: day CASE PROPOSAL [CASE PROPOSAL ..]\n");
        return NOT_JUDGED;
    }
    for (int at = 1; at < count; at += 2) {
        enum status status = judge_hour(words[at], words[at + 1]);
        tally.accepted += status == ACCEPTED;
        tally.refused += status == REFUSED;
        tally.not_judged += status == NOT_JUDGED;
    }
    printf("%u accepted, %u refused, %u not judged\n", tally.accepted, tally.refused, tally.not_judged);
    if (fflush(stdout) != 0) {
        fprintf(stderr, "day: cannot print: %s\n", strerror(errno));
        return NOT_JUDGED;
    }
    return tally.not_judged > 0 ? NOT_JUDGED : tally.refused > 0 ? REFUSED : ACCEPTED;
}
