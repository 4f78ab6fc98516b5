/* Calls that a compiler must warn about, one for each value of MISUSE. Any other value makes the same calls
 * correctly. */
#include "lta_judgement.h"

#ifndef MISUSE
#define MISUSE 0
#endif

#define SHORT_REPORT 1     /* 100 bytes, lent as 176 */
#define SHORT_SCRATCH 2    /* that of the small entries, lent to a wide one */
#define SHORT_PAIRS 3      /* a byte less than is read */
#define SHORT_QUEUE 4      /* 100 bytes */
#define NULL_QUEUE 5
#define NULL_CASE 6        /* of 14 bytes */
#define NULL_REPORT 7      /* to be read */
#define IGNORED_VERDICT 8
#define IGNORED_SERVE 9    /* the hour would be lost */

#define WELL(misuse) (MISUSE != (misuse))

uint64_t calls(const uint8_t *file, size_t length);

uint64_t calls(const uint8_t *file, size_t length)
{
    static uint8_t report[WELL(SHORT_REPORT) ? LTA_REPORT_ROOM : 100];
    static int64_t scratch[WELL(SHORT_SCRATCH) ? LTA_INTUITIVE_SCRATCH : LTA_INTUITIVE_SMALL_SCRATCH];
    static const uint8_t pairs[WELL(SHORT_PAIRS) ? 4 : 3] = {0, 1, 1};
    static uint8_t queue[WELL(SHORT_QUEUE) ? LTA_QUEUE_SIZE : LTA_QUEUE_SIZE - 1];
    uint64_t sum = lta_judge(file, length, file, length, report, LTA_REPORT_ROOM);
    sum += lta_hour_intuitive(file, length, file, length, pairs, 4, scratch, LTA_INTUITIVE_SCRATCH).number;
    sum += lta_queue_serve(queue).number;
    sum += lta_queue_serve(WELL(NULL_QUEUE) ? queue : NULL).number;
    sum += lta_judge(WELL(NULL_CASE) ? file : NULL, 14, file, length, report, 100);
    sum += lta_report_zones(WELL(NULL_REPORT) ? report : NULL);
#if MISUSE == IGNORED_VERDICT
    lta_judge(file, length, file, length, report, 100);
#elif MISUSE == IGNORED_SERVE
    lta_queue_serve(queue);
#endif
    return sum;
}
