/* A host of the desk queue: `areas POSTS` reads what four areas post; one loop serves the queue and judges each hour.
 * A line of the file POSTS is
 *
 *     AREA HOUR CASE PROPOSAL      an area's solver has finished an hour: post it, with its two files
 *     (a line without words)       the desk has time for one hour
 *
 * At the end of the file the desk serves all that waits. For each judged hour it prints area, hour, number, index and
 * what the number means; for each refused post area, hour, `not posted`, number and what it means. The last line
 * counts. A line that is neither kind is named by its number, counted from 1, and the lines after it are still read.
 * The status is 0 if every judged hour is accepted and every post taken, 1 if not, 2 if an hour could not be judged,
 * a line could not be read or the answer could not be printed.
 *
 *     cc areas.c $(pkg-config --cflags --libs lta_judgement) -o areas
 */
#include "lta_judgement.h"
#include "read_file.h"

#include <errno.h>
#include <inttypes.h>
#include <stdbool.h>
#include <stdio.h>
#include <stdlib.h>
#include <string.h>

#define NAME_MOST 255
#define LINE_MOST (2 * NAME_MOST + 40)

/* The desk: its queue, and the files of each hour that waits in it. All zero at the beginning of a day. */
struct desk {
    uint8_t queue[LTA_QUEUE_SIZE];
    struct files {
        char hour[NAME_MOST + 1], proposal[NAME_MOST + 1];
    } files[LTA_QUEUE_AREAS][LTA_QUEUE_HOURS];
    unsigned accepted, refused, not_judged, not_posted, not_read;
};

struct post {
    uint32_t area, hour;
    struct files files;
};

static void judge(struct desk *desk, uint32_t area, uint32_t hour)
{
    const struct files *files = &desk->files[area][hour];
    struct hour_files read;
    uint8_t report[LTA_REPORT_ROOM];
    if (!read_hour("areas", files->hour, files->proposal, &read)) {
        desk->not_judged++;
        return;
    }
    uint64_t verdict = lta_judge(read.case_bytes, read.case_length, read.proposal, read.proposal_length, report, sizeof report);
    uint32_t number = LTA_NUMBER(verdict);
    printf("%" PRIu32 " %" PRIu32 " %" PRIu32 " %" PRIu32 " %s\n", area, hour, number, LTA_INDEX(verdict), lta_number_text(number));
    desk->accepted += number == LTA_ACCEPTED;
    desk->refused += number != LTA_ACCEPTED;
}

/* Serves an hour and judges it; false if none waits. */
static bool serve(struct desk *desk)
{
    struct lta_served next = lta_queue_serve(desk->queue);
    if (next.number == LTA_QUEUE_NOTHING)
        return false;
    judge(desk, next.area, next.hour);
    return true;
}

/* Posts an hour. Its files are kept only if it is taken; then no other hour with this area and number waits, so
 * they cannot be confused. */
static void take_post(struct desk *desk, const struct post *post)
{
    uint32_t number = lta_queue_post(desk->queue, post->area, post->hour);
    if (number == 0) {
        desk->files[post->area][post->hour] = post->files;
    } else {
        printf("%" PRIu32 " %" PRIu32 " not posted %" PRIu32 " %s\n", post->area, post->hour, number, lta_number_text(number));
        desk->not_posted++;
    }
}

/* Whether a word is a whole number of 32 bits, in digits alone. strtoul accepts a sign and cuts a number that is
 * too large. The queue itself decides whether there is such an area or hour. */
static bool read_number(const char *word, uint32_t *number)
{
    char *end = NULL;
    errno = 0;
    unsigned long value = strtoul(word, &end, 10);
    *number = (uint32_t)value;
    return word[0] >= '0' && word[0] <= '9' && *end == '\0' && errno == 0 && value <= UINT32_MAX;
}

static bool read_name(const char *word, char name[NAME_MOST + 1])
{
    size_t length = strlen(word);
    if (length > NAME_MOST)
        return false;
    memcpy(name, word, length + 1);
    return true;
}

/* Reads four words as a post. Returns what is wrong with them, or null. */
static const char *read_post(char *const word[4], struct post *post)
{
    if (!read_number(word[0], &post->area))
        return "AREA is no whole number of 32 bits";
    if (!read_number(word[1], &post->hour))
        return "HOUR is no whole number of 32 bits";
    if (!read_name(word[2], post->files.hour) || !read_name(word[3], post->files.proposal))
        return "a file's name is too long";
    return NULL;
}

/* Cuts a line into words, keeps the first four and returns how many there are. */
static size_t cut_words(char *line, char *word[4])
{
    size_t count = 0;
    for (char *next = strtok(line, " \t\r"); next != NULL; next = strtok(NULL, " \t\r")) {
        if (count < 4)
            word[count] = next;
        count++;
    }
    return count;
}

/* Takes a line. Returns what is wrong with it, or null. */
static const char *take_line(struct desk *desk, char *line)
{
    char *word[4];
    struct post post;
    size_t count = cut_words(line, word);
    if (count == 0) {
        serve(desk);
        return NULL;
    }
    const char *fault = count == 4 ? read_post(word, &post) : "it is not AREA HOUR CASE PROPOSAL";
    if (fault == NULL)
        take_post(desk, &post);
    return fault;
}

enum line { LINE, BAD_LINE, NO_LINE };

/* The next line without its newline. A line that is too long or has a zero byte is read to its end and is bad. */
static enum line next_line(FILE *posts, char line[LINE_MOST + 1])
{
    size_t length = 0;
    bool good = true;
    int c = getc(posts);
    if (c == EOF)
        return NO_LINE;
    for (; c != EOF && c != '\n'; c = getc(posts)) {
        good = good && length < LINE_MOST && c != '\0';
        if (good)
            line[length++] = (char)c;
    }
    line[length] = '\0';
    return good ? LINE : BAD_LINE;
}

static void take_lines(struct desk *desk, FILE *posts)
{
    char line[LINE_MOST + 1];
    unsigned long number = 1;
    for (enum line next = next_line(posts, line); next != NO_LINE; next = next_line(posts, line), number++) {
        const char *fault = next == BAD_LINE ? "it is too long, or has a zero byte" : take_line(desk, line);
        if (fault != NULL) {
            fprintf(stderr, "areas: line %lu is left out: %s\n", number, fault);
            desk->not_read++;
        }
    }
}

int main(int count, char **words)
{
    static struct desk desk;
    if (count != 2) {
        fprintf(stderr, "usage: areas POSTS\n");
        return 2;
    }
    FILE *posts = fopen(words[1], "r");
    if (posts == NULL) {
        fprintf(stderr, "areas: cannot open %s: %s\n", words[1], strerror(errno));
        return 2;
    }
    take_lines(&desk, posts);
    if (ferror(posts)) {
        fprintf(stderr, "areas: cannot read %s: %s\n", words[1], strerror(errno));
        desk.not_read++;
    }
    fclose(posts);
    while (serve(&desk)) {
    }
    printf("%u accepted, %u refused, %u not judged, %u not posted\n", desk.accepted, desk.refused, desk.not_judged, desk.not_posted);
    if (fflush(stdout) != 0) {
        fprintf(stderr, "areas: cannot print: %s\n", strerror(errno));
        return 2;
    }
    return desk.not_judged + desk.not_read > 0 ? 2 : desk.refused + desk.not_posted > 0 ? 1 : 0;
}
