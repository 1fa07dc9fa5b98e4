/* vectors FILE..
 *
 * Tries the library on the simulator's stored vectors (sim/README.md, 'Vector files'). A file's name tells what its
 * records are: check-00.bin and so on, check-long.bin for long images and marks. Each lent buffer stands between bytes
 * that no call may touch. Prints a line for each record that differs, and one for all; exits with 1 if one differs, if
 * a file is not of the form, or if there is none. */
#include <stdio.h>
#include <stdlib.h>
#include <string.h>

#include "m7700.h"

/* What stands in marks before a read, in a page before it is written on and in every place before addresses are
 * located; and around each buffer. */
enum { UNREAD = 0x5A, UNWRITTEN = 0xA5, AROUND = 0xC3 };
static const uint32_t UNPLACED = 0xA5A5A5A5;

/* No file, image, page or buffer of the machine's in a record is longer; nor has a list more addresses or places. */
enum { LIMIT = 100000, WORDS = 4096, GUARD = 16 };

struct file {
    const char *path;
    uint8_t bytes[LIMIT];
    size_t length, at;
    int is_long;
};

struct lent {
    size_t length;
    uint8_t block[GUARD + LIMIT + GUARD];
};

static struct file file;
static struct lent image, marks, text, one, one_after, two, two_after;
static uint32_t addresses[WORDS], places[WORDS], places_after[WORDS];

static void fail(const char *why)
{
    fprintf(stderr, "vectors: %s: %s\n", file.path, why);
    exit(1);
}

/* ---- the parts of a record, each taken at the place where the last one ended */

static const uint8_t *take(size_t size)
{
    const uint8_t *part = file.bytes + file.at;

    if (file.length - file.at < size)
        fail("ends within a record");
    file.at += size;
    return part;
}

static uint64_t number(size_t size)
{
    const uint8_t *part = take(size);
    uint64_t value = 0;

    while (0 < size)
        value = value << 8 | part[--size];
    return value;
}

static uint8_t *bytes(struct lent *buffer)
{
    return buffer->block + GUARD;
}

static void lend(struct lent *buffer, size_t length)
{
    if (LIMIT < length)
        fail("has a buffer that is too long");
    buffer->length = length;
    memset(buffer->block, AROUND, GUARD);
    memset(bytes(buffer) + length, AROUND, GUARD);
}

static void lend_filled(struct lent *buffer, size_t length, int byte)
{
    lend(buffer, length);
    memset(bytes(buffer), byte, length);
}

/* What a buffer must hold after a call begins as what it holds before. */
static void keep(struct lent *after, const struct lent *buffer)
{
    after->length = buffer->length;
    memcpy(after->block, buffer->block, GUARD + buffer->length + GUARD);
}

static void take_bytes(struct lent *buffer)
{
    lend(buffer, number(4));
    memcpy(bytes(buffer), take(buffer->length), buffer->length);
}

static void take_pieces(struct lent *buffer)
{
    for (uint64_t left = number(2); 0 < left; left--) {
        const size_t offset = number(2), size = number(2);

        if (buffer->length < offset || buffer->length - offset < size)
            fail("has a piece outside its buffer");
        memcpy(bytes(buffer) + offset, take(size), size);
    }
}

static void take_buffer(struct lent *buffer, size_t length)
{
    const uint64_t first = number(1), by = number(1);

    lend(buffer, length);
    for (size_t k = 0; k < length; k++)
        bytes(buffer)[k] = (uint8_t)(first + by * k);
    take_pieces(buffer);
}

/* An image or marks. */
static void take_whole(struct lent *buffer)
{
    if (file.is_long)
        take_buffer(buffer, number(4));
    else
        take_bytes(buffer);
}

/* Marks that a call must leave: without their length but in a file of long ones. */
static void take_left(struct lent *buffer)
{
    if (file.is_long)
        take_whole(buffer);
    else
        memcpy(bytes(buffer), take(buffer->length), buffer->length);
}

static void take_words(uint32_t *list, size_t count)
{
    if (WORDS <= count)
        fail("has too many addresses or places");
    for (size_t k = 0; k < count; k++)
        list[k] = (uint32_t)number(4);
}

/* ---- what a call leaves */

static int is_done(uint64_t answer)
{
    return answer % 256 == 0;
}

/* The buffer and the bytes around it are as they must be. */
static int holds(const struct lent *buffer, const struct lent *after)
{
    return buffer->length == after->length &&
           memcmp(buffer->block, after->block, GUARD + buffer->length + GUARD) == 0;
}

/* ---- the records, a function a kind: whether the call did what the record says */

static int try_check(void)
{
    const uint32_t base = (uint32_t)number(4), reset = (uint32_t)number(4);

    take_whole(&image);
    take_whole(&marks);
    return m7700_check(bytes(&image), image.length, bytes(&marks), marks.length, base, reset) == number(4);
}

/* A step or a run: the state is one buffer, RAM the other. */
static int try_machine(int by_step)
{
    const uint32_t base = (uint32_t)number(4), steps = (uint32_t)number(4);
    uint64_t answer, given;

    take_whole(&image);
    take_buffer(&one, number(2));
    take_buffer(&two, number(2));
    keep(&one_after, &one);
    keep(&two_after, &two);
    answer = number(8);
    take_pieces(&one_after);
    take_pieces(&two_after);
    if (by_step)
        given = m7700_step(bytes(&image), image.length, base, bytes(&one), one.length, bytes(&two), two.length);
    else
        given = m7700_run(bytes(&image), image.length, base, bytes(&one), one.length, bytes(&two), two.length, steps);
    return given == answer && (!by_step || steps == 1) && holds(&one, &one_after) && holds(&two, &two_after);
}

static int try_step(void)
{
    return try_machine(1);
}

static int try_run(void)
{
    return try_machine(0);
}

static int try_read(void)
{
    uint64_t answer;

    take_bytes(&text);
    lend_filled(&one, number(4), UNREAD);
    keep(&one_after, &one);
    answer = number(8);
    if (is_done(answer))
        take_left(&one_after);
    return m7700_read_list(bytes(&text), text.length, bytes(&one), one.length) == answer && holds(&one, &one_after);
}

/* The page of a list, of a printed image or of an explanation, and what it must hold. */
static uint64_t take_page(void)
{
    uint64_t answer;

    lend_filled(&one, number(4), UNWRITTEN);
    keep(&one_after, &one);
    answer = number(8);
    if (is_done(answer)) {
        const size_t written = answer >> 8;

        if (one.length < written)
            fail("has a text that is longer than its page");
        memcpy(bytes(&one_after), take(written), written);
    }
    return answer;
}

static int try_write(void)
{
    const uint32_t base = (uint32_t)number(4), reset = (uint32_t)number(4);
    uint64_t answer;

    take_whole(&marks);
    answer = take_page();
    return m7700_write_list(bytes(&marks), marks.length, base, reset, bytes(&one), one.length) == answer &&
           holds(&one, &one_after);
}

static int try_print(void)
{
    const uint32_t base = (uint32_t)number(4), reset = (uint32_t)number(4);
    uint64_t answer;

    take_whole(&image);
    take_whole(&marks);
    answer = take_page();
    return m7700_print(bytes(&image), image.length, bytes(&marks), marks.length, base, reset, bytes(&one),
                       one.length) == answer &&
           holds(&one, &one_after);
}

static int try_explain(void)
{
    const uint32_t base = (uint32_t)number(4), reset = (uint32_t)number(4);
    uint64_t answer;

    take_whole(&image);
    take_whole(&marks);
    answer = take_page();
    return m7700_explain(bytes(&image), image.length, bytes(&marks), marks.length, base, reset, bytes(&one),
                         one.length) == answer &&
           holds(&one, &one_after);
}

/* Places behind those that are lent stand for the bytes around a buffer. */
static int try_locate(void)
{
    const uint32_t base = (uint32_t)number(4), reset = (uint32_t)number(4);
    size_t count, room;
    uint64_t answer;

    take_whole(&image);
    take_whole(&marks);
    count = number(4);
    take_words(addresses, count);
    room = number(4);
    if (WORDS <= room)
        fail("has too many addresses or places");
    for (size_t k = 0; k < WORDS; k++)
        places[k] = places_after[k] = UNPLACED;
    answer = number(8);
    if (is_done(answer))
        take_words(places_after, count);
    return m7700_locate(bytes(&image), image.length, bytes(&marks), marks.length, base, reset, addresses, count, places,
                        room) == answer &&
           memcmp(places, places_after, sizeof places) == 0;
}

static int try_build(void)
{
    const uint32_t base = (uint32_t)number(4), reset = (uint32_t)number(4);
    uint64_t answer;

    take_whole(&image);
    take_bytes(&text);
    take_whole(&one);
    keep(&one_after, &one);
    answer = number(8);
    if (is_done(answer))
        take_left(&one_after);
    return m7700_build_marks(bytes(&image), image.length, base, reset, bytes(&text), text.length, bytes(&one),
                             one.length) == answer &&
           holds(&one, &one_after);
}

/* ---- the files */

static const struct {
    const char *name;
    int (*agrees)(void);
} kinds[] = {
    {"check-", try_check}, {"step-", try_step},       {"run-", try_run},
    {"read-", try_read},   {"write-", try_write},     {"build-", try_build},
    {"print-", try_print}, {"explain-", try_explain}, {"locate-", try_locate},
};

static void load(const char *path)
{
    FILE *stream = fopen(path, "rb");

    file.path = path;
    file.at = 0;
    file.is_long = strstr(path, "-long.bin") != NULL;
    if (stream == NULL)
        fail("can't be read");
    file.length = fread(file.bytes, 1, LIMIT, stream);
    if (ferror(stream) || file.length == LIMIT)
        fail("can't be read, or is too long");
    fclose(stream);
}

static int (*kind_of(const char *path))(void)
{
    const char *name = strrchr(path, '/') == NULL ? path : strrchr(path, '/') + 1;

    for (size_t k = 0; k < sizeof kinds / sizeof *kinds; k++)
        if (strncmp(name, kinds[k].name, strlen(kinds[k].name)) == 0)
            return kinds[k].agrees;
    fail("has the name of no kind of records");
    return NULL;
}

int main(int argc, char **argv)
{
    unsigned long records = 0, differing = 0;

    for (int k = 1; k < argc; k++) {
        int (*agrees)(void);
        uint64_t count;

        load(argv[k]);
        agrees = kind_of(argv[k]);
        count = number(4);
        for (uint64_t record = 0; record < count; record++, records++)
            if (!agrees()) {
                printf("%s: record %lu differs\n", argv[k], (unsigned long)record);
                differing++;
            }
        if (file.at != file.length)
            fail("has something behind its last record");
    }
    printf("vectors: %lu of %lu records in %d files agree\n", records - differing, records, argc - 1);
    return 0 < differing || records == 0;
}
