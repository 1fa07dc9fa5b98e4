/* driver IMAGE MARKS BASE RESET
 * driver explain IMAGE MARKS BASE RESET LENGTH PAGE
 * driver write-list MARKS BASE RESET LENGTH LIST
 * driver read-list LIST LENGTH MARKS
 * driver build IMAGE BASE RESET ROUTINES LENGTH MARKS
 * driver print IMAGE MARKS BASE RESET LENGTH PAGE
 * driver locate IMAGE MARKS BASE RESET LENGTH [ADDRESS]..
 * driver run IMAGE MARKS BASE RESET START S RAM STEPS [OPTION]..
 * driver trace IMAGE MARKS BASE RESET START S RAM STEPS [OPTION]..
 *
 * Calls each function of the library with whatever the tests ask for.
 *
 * The first form reads an image and its mark bytes from two files, checks them,
 * and prints one line. The second explains what the check says of them in a page of
 * LENGTH bytes and writes the whole page into the file PAGE. The third writes the list
 * of a file's marks into a page of LENGTH bytes and the whole page into the file LIST;
 * the fourth reads the file LIST into LENGTH marks and writes them into the file MARKS.
 * The fifth builds LENGTH marks of an image from the file ROUTINES and writes them into
 * the file MARKS. The sixth prints an image into a page of LENGTH bytes and writes the
 * whole page into the file PAGE.
 *
 * The seventh locates addresses of an image and prints all of LENGTH places in one line; a
 * call that is refused and changes one passes for located.
 *
 * The eighth checks an image and, if it is accepted, runs it for STEPS steps in
 * RAM bytes of RAM, and prints one line. It begins with PG and PC at the 24-bit
 * address START and with S; all else of the state is 0, so m=0, x=0 and no call is
 * open. The ninth does the same one step after the other, a line each. Options:
 *
 *   --unchecked              runs the image without the check
 *   --poke OFFSET BYTE       puts a byte into the state before the run
 *   --state-length LENGTH    lends a state of another length
 *   --ram ADDRESS COUNT      prints so many bytes of RAM after it
 *   --state OFFSET COUNT     prints so many bytes of the state after it
 *
 * A page, marks that are read or built and RAM hold dots before. Every number given is
 * hexadecimal; counts and the check's offset are printed in decimal. The exit status is
 * 0 if accepted, explained, written, read, built, printed, located or run, 1 if refused,
 * 2 if there was nothing to work on. */
#include <errno.h>
#include <stdio.h>
#include <string.h>

#include "m7700.h"

enum { ACCEPTED = 0, REFUSED = 1, UNREAD = 2 };

/* A byte over the limit of an image, a list and a page: the library sees that a file
 * is too long. */
enum { LIMIT = M7700_PAGE_BYTES + 1 };

struct bytes {
    uint8_t at[LIMIT];
    size_t length;
};

static struct bytes image, marks, list, page, state, ram;

/* What a run is asked for, beside the buffers. */
struct plan {
    uint32_t base, reset, steps;
    int unchecked;
    uint32_t ram_from, ram_count, state_from, state_count;
};

/* Reads a file's first LIMIT bytes; 0 if it can't. */
static int read_file(const char *name, struct bytes *into)
{
    FILE *file = fopen(name, "rb");
    int failed;

    if (file == NULL) {
        fprintf(stderr, "driver: %s: %s\n", name, strerror(errno));
        return 0;
    }
    into->length = fread(into->at, 1, LIMIT, file);
    failed = ferror(file);
    if (failed)
        fprintf(stderr, "driver: %s: %s\n", name, strerror(errno));
    fclose(file);
    return !failed;
}

/* Reads one to eight hexadecimal digits and nothing else; 0 if it can't. An argument
 * that is missing is NULL. */
static int read_hex(const char *text, uint32_t *into)
{
    size_t length;

    if (text == NULL) {
        fprintf(stderr, "driver: a number is missing\n");
        return 0;
    }
    length = strlen(text);
    if (length == 0 || length > 8 || strspn(text, "0123456789abcdefABCDEF") != length) {
        fprintf(stderr, "driver: '%s' is not a number of 1 to 8 hexadecimal digits\n", text);
        return 0;
    }
    for (*into = 0; *text != '\0'; text++) {
        uint32_t digit = (uint32_t)(*text <= '9' ? *text - '0' : (*text | 0x20) - 'a' + 10);
        *into = *into << 4 | digit;
    }
    return 1;
}

/* Reads a number that is no more than a limit; 0 if it can't. */
static int read_up_to(uint32_t limit, const char *text, uint32_t *into)
{
    if (!read_hex(text, into))
        return 0;
    if (*into > limit)
        fprintf(stderr, "driver: %s is over %X\n", text, (unsigned)limit);
    return *into <= limit;
}

/* Writes a file; 0 if it can't. */
static int write_file(const char *name, const struct bytes *from)
{
    FILE *file = fopen(name, "wb");
    int failed = file == NULL || fwrite(from->at, 1, from->length, file) != from->length;

    if (file != NULL && fclose(file) != 0)
        failed = 1;
    if (failed)
        fprintf(stderr, "driver: %s: %s\n", name, strerror(errno));
    return !failed;
}

/* Fills a buffer of so many bytes with dots; 0 if it can't be so long. */
static int lend(const char *length, struct bytes *buffer)
{
    uint32_t count;

    if (!read_up_to(LIMIT, length, &count))
        return 0;
    buffer->length = count;
    memset(buffer->at, '.', count);
    return 1;
}

static int refused(uint32_t number)
{
    printf("refused: %u %s\n", (unsigned)number, m7700_refusal_word(number));
    return REFUSED;
}

static int explain(char **arguments)
{
    uint32_t base, reset;
    m7700_explanation explanation;

    if (!read_file(arguments[0], &image) || !read_file(arguments[1], &marks) ||
        !read_hex(arguments[2], &base) || !read_hex(arguments[3], &reset) ||
        !lend(arguments[4], &page))
        return UNREAD;
    explanation = m7700_explain_image(image.at, image.length, marks.at, marks.length, base, reset,
                                      page.at, page.length);
    if (!write_file(arguments[5], &page))
        return UNREAD;
    if (explanation.refusal != 0)
        return refused(explanation.refusal);
    printf("explained: %zu bytes\n", explanation.length);
    return ACCEPTED;
}

static int write_list(char **arguments)
{
    uint32_t base, reset;
    m7700_list_written written;

    if (!read_file(arguments[0], &marks) || !read_hex(arguments[1], &base) ||
        !read_hex(arguments[2], &reset) || !lend(arguments[3], &list))
        return UNREAD;
    written = m7700_write_mark_list(marks.at, marks.length, base, reset, list.at, list.length);
    if (!write_file(arguments[4], &list))
        return UNREAD;
    if (written.refusal != 0)
        return refused(written.refusal);
    printf("written: %zu bytes\n", written.length);
    return ACCEPTED;
}

static int read_list(char **arguments)
{
    m7700_list_read read;

    if (!read_file(arguments[0], &list) || !lend(arguments[1], &marks))
        return UNREAD;
    read = m7700_read_mark_list(list.at, list.length, marks.at, marks.length);
    if (!write_file(arguments[2], &marks))
        return UNREAD;
    if (read.refusal != 0)
        return refused(read.refusal);
    printf("read: base %06X, reset %06X\n", (unsigned)read.base, (unsigned)read.reset);
    return ACCEPTED;
}

static int build(char **arguments)
{
    uint32_t base, reset;
    m7700_marks_built built;

    if (!read_file(arguments[0], &image) || !read_hex(arguments[1], &base) ||
        !read_hex(arguments[2], &reset) || !read_file(arguments[3], &list) || !lend(arguments[4], &marks))
        return UNREAD;
    built = m7700_build_image_marks(image.at, image.length, base, reset, list.at, list.length, marks.at,
                                    marks.length);
    if (!write_file(arguments[5], &marks))
        return UNREAD;
    if (built.refusal != 0)
        return refused(built.refusal);
    puts("built");
    return ACCEPTED;
}

/* A refusal by the check's own number, or with its offset 0. */
static int refused_at(uint32_t number, uint32_t offset)
{
    printf("refused: %u %s, offset %u\n", (unsigned)number, m7700_refusal_word(number), (unsigned)offset);
    return REFUSED;
}

static int print(char **arguments)
{
    uint32_t base, reset;
    m7700_page_printed printed;

    if (!read_file(arguments[0], &image) || !read_file(arguments[1], &marks) ||
        !read_hex(arguments[2], &base) || !read_hex(arguments[3], &reset) ||
        !lend(arguments[4], &page))
        return UNREAD;
    printed = m7700_print_page(image.at, image.length, marks.at, marks.length, base, reset, page.at,
                               page.length);
    if (!write_file(arguments[5], &page))
        return UNREAD;
    if (printed.refusal != 0)
        return refused_at(printed.refusal, printed.offset);
    printf("printed: %zu bytes\n", printed.length);
    return ACCEPTED;
}

/* Numbers, and more of them than may be. */
enum { COUNT = M7700_ADDRESSES + 2, UNPLACED = 0x2E2E2E2E };

static uint32_t addresses[COUNT], places[COUNT];

static int locate(char **arguments, size_t count)
{
    uint32_t base, reset, room, i;
    int as_lent = 1;
    m7700_located located;

    if (!read_file(arguments[0], &image) || !read_file(arguments[1], &marks) ||
        !read_hex(arguments[2], &base) || !read_hex(arguments[3], &reset) ||
        !read_up_to(COUNT, arguments[4], &room) || count > COUNT)
        return UNREAD;
    for (i = 0; i < count; i++)
        if (!read_hex(arguments[5 + i], &addresses[i]))
            return UNREAD;
    for (i = 0; i < room; i++)
        places[i] = UNPLACED;
    located = m7700_locate_addresses(image.at, image.length, marks.at, marks.length, base, reset, addresses,
                                     count, places, room);
    for (i = 0; i < room; i++)
        as_lent = as_lent && places[i] == UNPLACED;
    if (located.refusal != 0 && as_lent)
        return refused_at(located.refusal, located.offset);
    printf("located by %u marks:", (unsigned)located.marks_read);
    for (i = 0; i < room; i++)
        printf(" %08X", (unsigned)places[i]);
    printf("\n");
    return ACCEPTED;
}

/* Checks the image against its marks; prints why it is refused. */
static int is_accepted(uint32_t base, uint32_t reset)
{
    m7700_verdict verdict = m7700_check_image(image.at, image.length, marks.at, marks.length, base,
                                              reset);

    if (verdict.refusal != 0)
        refused_at(verdict.refusal, verdict.offset);
    return verdict.refusal == 0;
}

static int check(char **arguments)
{
    uint32_t base, reset;

    if (!read_file(arguments[0], &image) || !read_file(arguments[1], &marks) ||
        !read_hex(arguments[2], &base) || !read_hex(arguments[3], &reset))
        return UNREAD;
    if (!is_accepted(base, reset))
        return REFUSED;
    puts("accepted");
    return ACCEPTED;
}

/* A word of the state, low byte first. */
static void put_word(size_t at, uint32_t value)
{
    state.at[at] = (uint8_t)value;
    state.at[at + 1] = (uint8_t)(value >> 8);
}

static unsigned get_word(size_t at)
{
    return state.at[at] | (unsigned)state.at[at + 1] << 8;
}

/* Makes the state that a run begins with. */
static void make_state(uint32_t start, uint32_t s)
{
    state.length = M7700_STATE_BYTES;
    memset(state.at, 0, M7700_STATE_BYTES);
    put_word(M7700_AT_S, s);
    put_word(M7700_AT_PC, start);
    state.at[M7700_AT_PG] = (uint8_t)(start >> 16);
}

/* Puts a byte into the state; 0 if it can't. */
static int poke(char **values)
{
    uint32_t offset, byte;

    if (!read_up_to(LIMIT - 1, values[0], &offset) || !read_up_to(0xFF, values[1], &byte))
        return 0;
    state.at[offset] = (uint8_t)byte;
    return 1;
}

static int set_state_length(char **values)
{
    uint32_t length;

    if (!read_up_to(LIMIT, values[0], &length))
        return 0;
    state.length = length;
    return 1;
}

/* Reads which bytes of a buffer are printed; 0 if it hasn't so many. */
static int read_range(const struct bytes *buffer, char **values, uint32_t *from, uint32_t *count)
{
    uint32_t length = (uint32_t)buffer->length;

    return read_up_to(length, values[0], from) && read_up_to(length - *from, values[1], count);
}

/* Takes one option; the number of its words, 0 if it can't be read. */
static int take_option(char **option, struct plan *plan)
{
    char **values = option + 1;

    if (strcmp(option[0], "--unchecked") == 0) {
        plan->unchecked = 1;
        return 1;
    }
    if (strcmp(option[0], "--poke") == 0)
        return poke(values) ? 3 : 0;
    if (strcmp(option[0], "--state-length") == 0)
        return set_state_length(values) ? 2 : 0;
    if (strcmp(option[0], "--ram") == 0)
        return read_range(&ram, values, &plan->ram_from, &plan->ram_count) ? 3 : 0;
    if (strcmp(option[0], "--state") == 0)
        return read_range(&state, values, &plan->state_from, &plan->state_count) ? 3 : 0;
    fprintf(stderr, "driver: no option '%s'\n", option[0]);
    return 0;
}

/* Reads what a run is asked for, and makes its state and RAM; 0 if it can't. */
static int read_plan(char **arguments, struct plan *plan)
{
    char **option = arguments + 8;
    uint32_t start, s;
    int taken;

    if (!read_file(arguments[0], &image) || !read_file(arguments[1], &marks) ||
        !read_hex(arguments[2], &plan->base) || !read_hex(arguments[3], &plan->reset) ||
        !read_up_to(0xFFFFFF, arguments[4], &start) || !read_up_to(0xFFFF, arguments[5], &s) ||
        !lend(arguments[6], &ram) || !read_hex(arguments[7], &plan->steps))
        return 0;
    make_state(start, s);
    for (; *option != NULL; option += taken) {
        taken = take_option(option, plan);
        if (taken == 0)
            return 0;
    }
    return 1;
}

/* Prints what a run answered and the registers that it left. */
static void print_run(m7700_run_result result)
{
    if (result.refusal != 0)
        printf("refused: %u %s", (unsigned)result.refusal, m7700_refusal_word(result.refusal));
    else
        printf("ended: %u %s", (unsigned)result.end, m7700_stop_word(result.end));
    printf(", steps %u, calls %u", (unsigned)result.steps, (unsigned)result.calls);
    printf(", A=%04X B=%04X X=%04X Y=%04X", get_word(M7700_AT_A), get_word(M7700_AT_B),
           get_word(M7700_AT_X), get_word(M7700_AT_Y));
    printf(" S=%04X PC=%04X PG=%02X DT=%02X", get_word(M7700_AT_S), get_word(M7700_AT_PC),
           (unsigned)state.at[M7700_AT_PG], (unsigned)state.at[M7700_AT_DT]);
    printf(" DPR=%04X PS=%04X\n", get_word(M7700_AT_DPR), get_word(M7700_AT_PS));
}

/* Prints so many bytes of a buffer, if there are any to print. */
static void print_bytes(const char *name, const struct bytes *from, uint32_t at, uint32_t count)
{
    uint32_t i;

    if (count == 0)
        return;
    printf("%s %04X:", name, (unsigned)at);
    for (i = 0; i < count; i++)
        printf(" %02X", (unsigned)from->at[at + i]);
    putchar('\n');
}

/* All steps in one run. */
static m7700_run_result run(const struct plan *plan)
{
    m7700_run_result result = m7700_run_image(image.at, image.length, plan->base, state.at,
                                              state.length, ram.at, ram.length, plan->steps);

    print_run(result);
    return result;
}

/* One step after the other, until one is refused or stops. */
static m7700_run_result trace(const struct plan *plan)
{
    m7700_run_result result = {0, M7700_DONE, 0, 0};
    uint32_t left = plan->steps;

    while (left-- > 0 && result.refusal == 0 && result.end == M7700_DONE) {
        result = m7700_step_image(image.at, image.length, plan->base, state.at, state.length,
                                  ram.at, ram.length);
        print_run(result);
    }
    return result;
}

/* Checks an image and lets the machine go. */
static int execute(char **arguments, m7700_run_result (*machine)(const struct plan *))
{
    struct plan plan = {0};
    m7700_run_result result;

    if (!read_plan(arguments, &plan))
        return UNREAD;
    if (!plan.unchecked && !is_accepted(plan.base, plan.reset))
        return REFUSED;
    result = machine(&plan);
    print_bytes("RAM", &ram, plan.ram_from, plan.ram_count);
    print_bytes("state", &state, plan.state_from, plan.state_count);
    return result.refusal != 0 ? REFUSED : ACCEPTED;
}

int main(int argc, char **argv)
{
    if (argc == 8 && strcmp(argv[1], "explain") == 0)
        return explain(argv + 2);
    if (argc == 7 && strcmp(argv[1], "write-list") == 0)
        return write_list(argv + 2);
    if (argc == 5 && strcmp(argv[1], "read-list") == 0)
        return read_list(argv + 2);
    if (argc == 8 && strcmp(argv[1], "build") == 0)
        return build(argv + 2);
    if (argc == 8 && strcmp(argv[1], "print") == 0)
        return print(argv + 2);
    if (argc >= 7 && strcmp(argv[1], "locate") == 0)
        return locate(argv + 2, (size_t)argc - 7);
    if (argc >= 10 && strcmp(argv[1], "run") == 0)
        return execute(argv + 2, run);
    if (argc >= 10 && strcmp(argv[1], "trace") == 0)
        return execute(argv + 2, trace);
    if (argc == 5)
        return check(argv + 1);
    fprintf(stderr, "usage: driver IMAGE MARKS BASE RESET\n"
                    "       driver explain IMAGE MARKS BASE RESET LENGTH PAGE\n"
                    "       driver write-list MARKS BASE RESET LENGTH LIST\n"
                    "       driver read-list LIST LENGTH MARKS\n"
                    "       driver build IMAGE BASE RESET ROUTINES LENGTH MARKS\n"
                    "       driver print IMAGE MARKS BASE RESET LENGTH PAGE\n"
                    "       driver locate IMAGE MARKS BASE RESET LENGTH [ADDRESS]..\n"
                    "       driver run IMAGE MARKS BASE RESET START S RAM STEPS [OPTION]..\n"
                    "       driver trace IMAGE MARKS BASE RESET START S RAM STEPS [OPTION]..\n");
    return UNREAD;
}
