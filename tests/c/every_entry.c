/* Every entry called as the header allows, in the common subset of C99 and C++98: no compiler may warn. Status 0
 * if each entry gives the expected answer. The header is included twice, as happens in a large program. */
#include "lta_judgement.h"
#include "lta_judgement.h"

/* An array may be null where there is nothing to read and no room. */
static int answers_without_arrays(void)
{
    return LTA_NUMBER(lta_judge(NULL, 0, NULL, 0, NULL, 0)) == LTA_NO_ROOM &&
           LTA_NUMBER(lta_judge_families(NULL, 0, NULL, 0, NULL, 0, NULL, 0)) == LTA_NO_ROOM &&
           lta_book_surplus(NULL, 0, NULL, 0).number == LTA_CASE_HEADER &&
           lta_desk_lines(NULL, 0, NULL, 0).number == LTA_DESK_NO_ROOM &&
           lta_sheet_branches(NULL, 0, 17, NULL, 0).number == LTA_SHEET_ZONES &&
           lta_intuitive(NULL, 0, NULL, 0, NULL, 0, NULL, 0).number == LTA_INTUITIVE_ZONES &&
           lta_hour_intuitive(NULL, 0, NULL, 0, NULL, 0, NULL, 0).number == LTA_CASE_SHORT &&
           lta_intuitive_small(NULL, 0, NULL, 0, NULL, 0, NULL, 0).number == LTA_INTUITIVE_ZONES &&
           lta_hour_intuitive_small(NULL, 0, NULL, 0, NULL, 0, NULL, 0).number == LTA_CASE_SHORT &&
           lta_dump_proposal(NULL, 0, NULL, 0, NULL, 0).number == LTA_DUMP_CASE &&
           lta_case_columned(NULL, 0, NULL, 0).number == LTA_COLUMN_FILE &&
           lta_case_restored(NULL, 0, NULL, 0).number == LTA_COLUMN_FILE &&
           lta_shortfalls(NULL, 0, NULL, 0, NULL, 0).number == LTA_CASE_SHORT;
}

/* Memory that was never written may be lent, and so may part of an array. */
static int answers_with_arrays(void)
{
    const uint8_t file[14] = {'L', 'T', 'X'};
    uint8_t report[LTA_REPORT_ROOM], out[LTA_CASE_ROOM];
    int64_t scratch[LTA_INTUITIVE_SCRATCH], shortfalls[LTA_SHORTFALL_ROOM];
    const int64_t numbers[2] = {0, 0};
    const struct lta_order order = {0, LTA_BUYS, 1, 0};
    const uint64_t verdict = lta_judge(file, sizeof file, file, sizeof file, report, sizeof report);
    return LTA_NUMBER(verdict) == LTA_CASE_MARK && LTA_INDEX(verdict) == 0 &&
           LTA_NUMBER(lta_judge_families(file, 14, file, 14, file, 5, report, sizeof report)) == LTA_CASE_MARK &&
           lta_book_surplus(&order, 1, numbers, 2).number == LTA_ACCEPTED &&
           lta_desk_lines(file, sizeof file, out, LTA_DESK_ROOM).number == LTA_ACCEPTED &&
           lta_sheet_branches(file, sizeof file, 16, out, LTA_SHEET_ROOM).number == LTA_SHEET_FIELD &&
           lta_intuitive(numbers, 2, numbers, 2, NULL, 0, scratch, LTA_INTUITIVE_SCRATCH).intuitive == 1 &&
           lta_hour_intuitive(file, 14, file, 14, NULL, 0, scratch, LTA_INTUITIVE_SCRATCH).number == LTA_CASE_MARK &&
           lta_intuitive_small(numbers, 2, numbers, 2, NULL, 0, scratch, LTA_INTUITIVE_SMALL_SCRATCH).intuitive == 1 &&
           lta_hour_intuitive_small(file, 14, file, 14, NULL, 0, scratch, LTA_INTUITIVE_SMALL_SCRATCH).number == LTA_CASE_MARK &&
           lta_dump_proposal(file, 14, file, 14, out, LTA_PROPOSAL_ROOM).index == LTA_CASE_MARK &&
           lta_case_columned(file, 14, out, LTA_CASE_ROOM).number == LTA_COLUMN_FILE &&
           lta_case_restored(file, 14, out, LTA_CASE_ROOM).number == LTA_COLUMN_FILE &&
           lta_shortfalls(file, 14, file, 14, shortfalls, LTA_SHORTFALL_ROOM).number == LTA_CASE_MARK;
}

static int queue_answers(void)
{
    uint8_t queue[LTA_QUEUE_SIZE] = {0};
    return lta_queue_post(queue, LTA_QUEUE_AREAS, 0) == LTA_QUEUE_AREA && lta_queue_post(queue, 3, 24) == 0 &&
           lta_queue_serve(queue).hour == 24 && lta_queue_serve(queue).number == LTA_QUEUE_NOTHING;
}

int main(void)
{
    return lta_version() == LTA_VERSION_NUMBER && answers_without_arrays() && answers_with_arrays() && queue_answers() ? 0 : 1;
}
