/* What the example hosts share: reading the files of an hour into memory of a fixed size.
 *
 * It reads at most one byte more of a file than the longest legal file has. With that byte a longer file is refused for
 * its length, as the whole file would be.
 */
#ifndef READ_FILE_H
#define READ_FILE_H

#include "lta_judgement.h"

#include <errno.h>
#include <stdbool.h>
#include <stdio.h>
#include <string.h>

struct hour_files {
    uint8_t case_bytes[LTA_CASE_ROOM + 1], proposal[LTA_PROPOSAL_ROOM + 1];
    size_t case_length, proposal_length;
};

/* Reads at most `room` bytes of a file; false, with a message, if it cannot be read. */
static inline bool read_file(const char *program, const char *name, uint8_t *bytes, size_t room, size_t *length)
{
    FILE *file = fopen(name, "rb");
    if (file == NULL) {
        fprintf(stderr, "%s: cannot open %s: %s\n", program, name, strerror(errno));
        return false;
    }
    setvbuf(file, NULL, _IONBF, 0); /* else it would read ahead */
    *length = fread(bytes, 1, room, file);
    bool read = ferror(file) == 0;
    if (!read)
        fprintf(stderr, "%s: cannot read %s: %s\n", program, name, strerror(errno));
    fclose(file);
    return read;
}

/* The same for the two files of an hour. */
static inline bool read_hour(const char *program, const char *case_name, const char *proposal_name, struct hour_files *hour)
{
    return read_file(program, case_name, hour->case_bytes, sizeof hour->case_bytes, &hour->case_length) &&
           read_file(program, proposal_name, hour->proposal, sizeof hour->proposal, &hour->proposal_length);
}

#endif
