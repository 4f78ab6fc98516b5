/* What the header itself has besides the library's entries: the version, which must be the library's, the readers
 * of a report and the numbers in words. */
#include "harness.h"
#include "hours.h"
#include "lta_judgement.h"

#include <inttypes.h>
#include <stdio.h>
#include <string.h>

static void versions(void)
{
    unsigned major = 0, minor = 0, patch = 0;
    about("the version as text is not three numbers");
    check(sscanf(LTA_VERSION, "%u.%u.%u", &major, &minor, &patch) == 3);
    about("the version as a number is another than the text's");
    check(LTA_VERSION_NUMBER == 10000 * major + 100 * minor + patch);
    about("the library is of version %" PRIu32, lta_version());
    check(lta_version() == LTA_VERSION_NUMBER);
}

static void amount_reads(int64_t amount)
{
    uint8_t report[16] = {0};
    for (size_t k = 0; k < 8; k++)
        report[5 + k] = (uint8_t)((uint64_t)amount >> 8 * k);
    about("%" PRId64 " is read as another number", amount);
    check(lta_report_amount(report, 5) == amount);
}

/* Each reader reads its own field: every field of this report has another value, some negative. */
static void readers(void)
{
    const struct totals t = {-1, 2, -300000000000, 4, 5, {-6, 7, INT64_MAX}};
    struct file report = report_file(26, 3, t);
    const uint8_t *r = report.bytes;
    about("number or zones");
    check(lta_report_number(r) == 26 && lta_report_zones(r) == 3);
    about("a total is another's");
    check(lta_report_welfare(r) == -1 && lta_report_bound(r) == 2 && lta_report_gap(r) == -300000000000);
    check(lta_report_rent(r) == 4 && lta_report_owed(r) == 5);
    about("a price is another's");
    check(lta_report_price(r, 0) == -6 && lta_report_price(r, 1) == 7 && lta_report_price(r, 2) == INT64_MAX);
    const int64_t ends[] = {0, 1, -1, 255, 256, -256, INT32_MAX, INT32_MIN, INT64_MAX, INT64_MIN};
    for (size_t k = 0; k < COUNT(ends); k++)
        amount_reads(ends[k]);
}

/* No two numbers have the same words. tests/numbers checks which numbers have words, and which words. */
static void number_texts(void)
{
    const char *none = lta_number_text(UINT32_MAX);
    unsigned count = 0;
    for (uint32_t n = 0; n < 300; n++) {
        const char *words = lta_number_text(n);
        bool worded = strcmp(words, none) != 0, own = true;
        about("number %" PRIu32 " has the words '%s'", n, words);
        for (uint32_t m = 0; worded && m < n; m++)
            own = strcmp(words, lta_number_text(m)) != 0 && own;
        check(own);
        count += worded;
    }
    about("%u numbers have words", count);
    check(count >= 52 && count < 100);
}

int main(void)
{
    group("header and library have the same version", versions);
    group("each reader reads its own field", readers);
    group("no two numbers have the same words", number_texts);
    return closing();
}
