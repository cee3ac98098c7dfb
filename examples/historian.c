/*
 * historian FILE: a small plant historian. It reads a period file, has the library work it out, and prints a row for each
 * plant and for each segment, or says why the file is refused and at which byte. Exits with 0, with 1 if the file is
 * refused, with 2 if it could not be read or the rows could not be written. README.md in this folder says how to build
 * and run it.
 */
#include <inttypes.h>
#include <stdbool.h>
#include <stdio.h>
#include <stdlib.h>

#include "steeplecuff.h"

enum { REFUSED = 1, NOT_DONE = 2 };

/* Room for one byte more than any period file has: that byte shows that a file is too long, and no byte after it can
   change the answer. */
struct file {
    uint8_t bytes[STEEPLECUFF_MOST_FILE_BYTES + 1];
    size_t len;
};

static bool read_file(struct file *file, const char *name)
{
    FILE *stream = fopen(name, "rb");
    if (stream == NULL)
        return false;
    file->len = fread(file->bytes, 1, sizeof file->bytes, stream);
    bool read = !ferror(stream);
    fclose(stream);
    return read;
}

/* A number of a table: eight bytes, least significant first, whatever the order on this machine. */
static uint64_t number_at(const uint8_t *table, size_t index)
{
    const uint8_t *bytes = table + index * STEEPLECUFF_NUMBER_BYTES;
    uint64_t number = 0;
    for (size_t i = STEEPLECUFF_NUMBER_BYTES; i > 0; i--)
        number = number << 8 | bytes[i - 1];
    return number;
}

static void print_rows(char letter, const uint8_t *table, size_t rows, size_t fields)
{
    for (size_t row = 0; row < rows; row++) {
        printf("%c %zu", letter, row + 1);
        for (size_t field = 0; field < fields; field++)
            printf(" %" PRIu64, number_at(table, row * fields + field));
        putchar('\n');
    }
}

/* What a refusal means, by its number. */
static const char *const reasons[] = {
    [STEEPLECUFF_REFUSED_FILE_ENDS] = "the file ends too early",
    [STEEPLECUFF_REFUSED_NOT_SHORTEST] = "a number is not in its shortest form",
    [STEEPLECUFF_REFUSED_NUMBER_OVER_LIMIT] = "a number is too large",
    [STEEPLECUFF_REFUSED_EDITION] = "the edition is not known",
    [STEEPLECUFF_REFUSED_COUNT] = "there are too few or too many records",
    [STEEPLECUFF_REFUSED_PLANT_FIELD] = "a plant's field is out of range",
    [STEEPLECUFF_REFUSED_SEGMENT_FIELD] = "a segment's kind or next segment is not allowed",
    [STEEPLECUFF_REFUSED_LINE_FIELD] = "a line's field is not allowed",
    [STEEPLECUFF_REFUSED_BYTES_AFTER] = "bytes follow the last number",
    [STEEPLECUFF_REFUSED_GRAMS_OVER_LIMIT] = "an owner's emissions are too large",
    [STEEPLECUFF_REFUSED_INFLOW_OVER_LIMIT] = "a segment's inflow is too large",
    [STEEPLECUFF_REFUSED_OUTFLOW_OVER_INFLOW] = "a segment's outflow is larger than its inflow",
    [STEEPLECUFF_REFUSED_EMISSION_WITHOUT_INFLOW] = "a segment has emissions and no inflow",
    [STEEPLECUFF_REFUSED_CAPTURED_OVER_FUEL] = "a plant captured more fossil CO2 than its fuel gave",
    /* cannot happen here, since both tables have room for every file; a historian with shorter tables can get these two */
    [STEEPLECUFF_REFUSED_PLANT_TABLE_SHORT] = "the plant table is too short",
    [STEEPLECUFF_REFUSED_SEGMENT_TABLE_SHORT] = "the segment table is too short",
};

/* Prints the refusal in numbers, and in words with the byte as people find it in a byte viewer. */
static void print_refusal(uint32_t refusal, uint64_t place, uint64_t offset, size_t file_len)
{
    printf("R %" PRIu32 " %" PRIu64 " %" PRIu64 "\n", refusal, place, offset);
    fprintf(stderr, "historian: refused, %" PRIu32 " at %" PRIu64 ": %s\n", refusal, place, reasons[refusal]);
    fprintf(stderr, "historian: byte %" PRIu64 " of the file (%" PRIX64 " in hexadecimal)%s\n", offset, offset,
            offset == file_len ? ", which is its end" : "");
}

int main(int argc, char **argv)
{
    static struct file file;
    static uint8_t plants[STEEPLECUFF_MOST_PLANT_BYTES], segments[STEEPLECUFF_MOST_SEGMENT_BYTES];
    uint64_t place, offset;

    if (argc != 2 || !read_file(&file, argv[1])) {
        fprintf(stderr, "historian: cannot read a period file: write historian FILE, with a file that you may read\n");
        return NOT_DONE;
    }
    uint32_t answer =
        steeplecuff_quantify(file.bytes, file.len, plants, sizeof plants, segments, sizeof segments, &place, &offset);
    if (answer == STEEPLECUFF_ACCEPTED) {
        print_rows('P', plants, file.bytes[STEEPLECUFF_PLANTS_BYTE], STEEPLECUFF_PLANT_NUMBERS);
        print_rows('S', segments, file.bytes[STEEPLECUFF_SEGMENTS_BYTE], STEEPLECUFF_SEGMENT_NUMBERS);
    } else {
        print_refusal(answer, place, offset, file.len);
    }
    if (fflush(stdout) != 0 || ferror(stdout)) {
        fprintf(stderr, "historian: cannot write to standard output: see that there is room, and run this again\n");
        return NOT_DONE;
    }
    return answer == STEEPLECUFF_ACCEPTED ? EXIT_SUCCESS : REFUSED;
}
