/* release IMAGE LIST
 * release IMAGE BASE RESET ROUTINES
 *
 * Reads an image and its mark list, or builds its marks from a routine list and
 * two addresses in hexadecimal; checks them and, if the image is accepted, runs
 * it from its reset for some steps. The exit status is 0 if the image is
 * accepted and was run, 1 if it is refused, 2 if a file or an address can't be
 * read or the answer can't be printed. */
#include <errno.h>
#include <m7700.h>
#include <stdio.h>
#include <stdlib.h>
#include <string.h>

enum { RELEASED = 0, REFUSED = 1, FAILED = 2 };
enum { STEPS = 1000 };

/* Each file's buffer has a byte more than its limit, to see that it is over. */
static uint8_t image[M7700_IMAGE_BYTES + 1], list[M7700_LIST_BYTES + 1];
static uint8_t marks[M7700_IMAGE_BYTES], ram[M7700_RAM_BYTES], state[M7700_STATE_BYTES];

/* Reads a file of less than `size` bytes; 0 if it can't. */
static int read_file(const char *name, uint8_t *bytes, size_t size, size_t *length)
{
    FILE *file = fopen(name, "rb");
    const char *why = NULL;

    *length = file == NULL ? 0 : fread(bytes, 1, size, file);
    if (file == NULL || ferror(file))
        why = strerror(errno);
    else if (*length == size)
        why = "too long";
    if (why != NULL)
        fprintf(stderr, "release: %s: %s\n", name, why);
    if (file != NULL)
        fclose(file);
    return why == NULL;
}

static int refused(const char *what, uint32_t number)
{
    printf("%s refused: %u %s\n", what, number, m7700_refusal_word(number));
    return REFUSED;
}

/* A word of the state, low byte first. */
static void put_word(size_t at, uint32_t value)
{
    state[at] = value & 0xFF;
    state[at + 1] = value >> 8 & 0xFF;
}

/* Runs the accepted image from its reset, in as much RAM as it may have, the stack at RAM's end. */
static int run(size_t image_len, uint32_t base, uint32_t reset)
{
    uint32_t ram_len = base < M7700_RAM_BYTES ? base : M7700_RAM_BYTES;
    m7700_run_result result;

    memset(state, 0, sizeof state); /* m=0, x=0, no open call */
    put_word(M7700_AT_S, ram_len - 1);
    put_word(M7700_AT_PC, reset);
    state[M7700_AT_PG] = reset >> 16 & 0xFF;
    result = m7700_run_image(image, image_len, base, state, sizeof state, ram, ram_len, STEPS);
    if (result.refusal != 0)
        return refused("run", result.refusal);
    printf("run ended: %u %s, steps %u, calls %u, at %02X%02X%02X\n", result.end,
           m7700_stop_word(result.end), result.steps, result.calls, state[M7700_AT_PG],
           state[M7700_AT_PC + 1], state[M7700_AT_PC]);
    return RELEASED;
}

/* Checks the image against its marks and, if it is accepted, runs it; else says what to mend. */
static int release(size_t image_len, uint32_t base, uint32_t reset)
{
    m7700_verdict verdict = m7700_check_image(image, image_len, marks, image_len, base, reset);
    uint8_t line[M7700_EXPLANATION_BYTES];
    m7700_explanation why;

    if (verdict.refusal != 0) {
        printf("image refused: %u %s, offset %u\n", verdict.refusal,
               m7700_refusal_word(verdict.refusal), verdict.offset);
        why = m7700_explain_image(image, image_len, marks, image_len, base, reset, line, sizeof line);
        fwrite(line, 1, why.length, stdout);
        return REFUSED;
    }
    puts("image accepted");
    return run(image_len, base, reset);
}

/* The marks are those of a mark list. */
static int release_listed(const char *image_name, const char *list_name)
{
    size_t image_len, list_len;
    m7700_list_read read;

    if (!read_file(image_name, image, sizeof image, &image_len) ||
        !read_file(list_name, list, sizeof list, &list_len))
        return FAILED;
    read = m7700_read_mark_list(list, list_len, marks, image_len);
    if (read.refusal != 0)
        return refused("list", read.refusal);
    return release(image_len, read.base, read.reset);
}

/* Reads an address; 0 if it can't. */
static int read_address(const char *text, uint32_t *address)
{
    char *end;
    unsigned long number;

    errno = 0;
    number = strtoul(text, &end, 16);
    if (errno != 0 || end == text || *end != '\0' || number > 0xFFFFFF) {
        fprintf(stderr, "release: '%s' is no address\n", text);
        return 0;
    }
    *address = number & 0xFFFFFF;
    return 1;
}

/* The marks are built from a routine list. */
static int release_built(char **arguments)
{
    size_t image_len, list_len;
    uint32_t base, reset;
    m7700_marks_built built;

    if (!read_file(arguments[0], image, sizeof image, &image_len) ||
        !read_address(arguments[1], &base) || !read_address(arguments[2], &reset) ||
        !read_file(arguments[3], list, sizeof list, &list_len))
        return FAILED;
    built = m7700_build_image_marks(image, image_len, base, reset, list, list_len, marks, image_len);
    if (built.refusal != 0)
        return refused("routines", built.refusal);
    return release(image_len, base, reset);
}

int main(int argc, char **argv)
{
    int status = FAILED;

    if (argc == 3)
        status = release_listed(argv[1], argv[2]);
    else if (argc == 5)
        status = release_built(argv + 1);
    else
        fprintf(stderr, "usage: release IMAGE LIST\n"
                        "       release IMAGE BASE RESET ROUTINES\n");
    if (fflush(stdout) != 0 || ferror(stdout)) {
        perror("release");
        return FAILED;
    }
    return status;
}
