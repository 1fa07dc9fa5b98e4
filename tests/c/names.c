/* names: that each name of the header means to the library what the header says of it. C and C++ alike. Prints a line
 * for each that does not; the exit status is then 1. */
#include <stdio.h>
#include <string.h>

#include "m7700.h"
#include "m7700.h"

#define BASE 0x00C000
#define RESET 0x00C000

static uint8_t image[M7700_IMAGE_BYTES + 1], marks[M7700_IMAGE_BYTES + 1], list[M7700_LIST_BYTES];
static uint8_t page[M7700_PAGE_BYTES];
static uint32_t addresses[M7700_ADDRESSES + 1], places[M7700_ADDRESSES + 1];
static uint8_t state[M7700_STATE_BYTES + 1], ram[M7700_RAM_BYTES + 1];
static unsigned cases, differing;

static void same(const char *what, size_t got, size_t expected)
{
    cases++;
    if (got == expected)
        return;
    differing++;
    printf("differs: %s is %zu, expected %zu\n", what, got, expected);
}

static void same_text(const char *what, const char *got, const char *expected)
{
    cases++;
    if (strcmp(got, expected) == 0)
        return;
    differing++;
    printf("differs: %s is '%s', expected '%s'\n", what, got, expected);
}

static uint32_t word(size_t at)
{
    return state[at] | state[at + 1] * 256u;
}

static void put_word(size_t at, uint32_t value)
{
    state[at] = value & 0xFF;
    state[at + 1] = value >> 8 & 0xFF;
}

/* A state that begins at the reset, with all of RAM and its end for the stack. */
static void begin(uint32_t ps)
{
    memset(state, 0, sizeof state);
    put_word(M7700_AT_S, M7700_RAM_BYTES - 1);
    put_word(M7700_AT_PC, RESET);
    put_word(M7700_AT_PS, ps);
    state[M7700_AT_PG] = BASE >> 16;
}

static m7700_run_result run(size_t image_len, size_t state_len, size_t ram_len, uint32_t steps)
{
    return m7700_run_image(image, image_len, BASE, state, state_len, ram, ram_len, steps);
}

/* Runs code of up to eight bytes from the reset on. */
static m7700_run_result run_code(const char *code, uint32_t ps, uint32_t steps)
{
    memset(image, 0, sizeof image);
    memcpy(image, code, 8);
    begin(ps);
    return run(8, M7700_STATE_BYTES, M7700_RAM_BYTES, steps);
}

static void flags(void)
{
    run_code("\x38\0\0\0\0\0\0", 0, 1); /* SEC */
    same("PS after SEC", word(M7700_AT_PS), M7700_PS_C);
    run_code("\xA9\0\0\0\0\0\0", 0, 1); /* LDA #0000 */
    same("PS after a 0", word(M7700_AT_PS), M7700_PS_Z);
    run_code("\x78\0\0\0\0\0\0", 0, 1); /* SEI */
    same("PS after SEI", word(M7700_AT_PS), M7700_PS_I);
    run_code("\xF8\0\0\0\0\0\0", 0, 1); /* SEM */
    same("PS after SEM", word(M7700_AT_PS), M7700_PS_M);
    run_code("\xA9\0\x80\0\0\0\0", 0, 1); /* LDA #8000 */
    same("PS after 8000", word(M7700_AT_PS), M7700_PS_N);
    run_code("\xA9\xFF\x7F\x69\x01\0\0", 0, 2); /* LDA #7FFF, ADC #0001 */
    same("PS after 7FFF + 1", word(M7700_AT_PS), M7700_PS_N | M7700_PS_V);
    run_code("\xA2\0\0\0\0\0\0", M7700_PS_X, 1); /* LDX #00 */
    same("PC after LDX at x=1", word(M7700_AT_PC), RESET + 2);
    same("ADC at D=1", run_code("\x69\0\0\0\0\0\0", M7700_PS_D, 1).end, M7700_STOP_DECIMAL);
    same("all of PS", M7700_PS_C + M7700_PS_Z + M7700_PS_I + M7700_PS_D + M7700_PS_X + M7700_PS_M + M7700_PS_V +
         M7700_PS_N + M7700_PS_IPL, 0x07FF);
}

static void mark_bits(void)
{
    static const char expected[] = "I\t00C000\t7\t00C000\n00C000\t0\t0\tN\t0\t0\n00C001\t1\t0\tN\t0\t0\n"
        "00C002\t0\t1\tN\t0\t0\n00C003\t0\t0\tS\t0\t0\n00C004\t0\t0\tL\t0\t0\n00C005\t0\t0\tS\t1\t0\n"
        "00C006\t0\t0\tL\t0\t1\n";
    static const uint8_t bits[] = {
        M7700_KIND_NONE << 3, M7700_MARK_M, M7700_MARK_X, M7700_KIND_RTS << 3, M7700_KIND_RTL << 3,
        M7700_KIND_RTS << 3 | M7700_MARK_RETURN_M, M7700_KIND_RTL << 3 | M7700_MARK_RETURN_X,
    };
    m7700_list_written written;
    size_t i;

    for (i = 0; i < sizeof bits; i++)
        marks[i] = bits[i] | M7700_MARK_START;
    written = m7700_write_mark_list(marks, sizeof bits, BASE, RESET, list, sizeof list);
    same("the list's refusal", written.refusal, 0);
    same("the list's length", written.length, sizeof expected - 1);
    same("the list", memcmp(list, expected, sizeof expected - 1) == 0, 1);
    same("both bits of a kind", M7700_MARK_KIND, M7700_KIND_RTS << 3 | M7700_KIND_RTL << 3);
}

/* The lines of so many routines from behind the reset on, each of the kind that RTS ends. */
static size_t list_routines(uint32_t count)
{
    char line[32];
    uint32_t i;

    for (i = 0; i < count; i++) {
        sprintf(line, "%06X\t0\t0\tS\t0\t0\n", RESET + 1 + i);
        memcpy(list + 17 * i, line, 17);
    }
    return 17 * count;
}

/* STP at the reset and at each of so many routines. */
static m7700_marks_built build(uint32_t count)
{
    memset(image, 0xDB, sizeof image);
    memset(marks, 0xFF, sizeof marks);
    return m7700_build_image_marks(image, count + 1, BASE, RESET, list, list_routines(count), marks, count + 1);
}

static void marks_built(void)
{
    same("no routines", build(0).refusal, 0);
    same("the mark at the reset", marks[0], M7700_MARK_START);
    same("a routine", build(1).refusal, 0);
    same("its mark", marks[1], M7700_MARK_START | M7700_KIND_RTS << 3);
    same("the mark behind it", marks[2], 0xFF);
    same("the most routines", build(M7700_ROUTINES).refusal, 0);
    same("more routines", build(M7700_ROUTINES + 1).refusal, M7700_REFUSED_ROUTINES);
    same("the marks then", marks[0], 0xFF);
    same("a list cut short", m7700_build_image_marks(image, 2, BASE, RESET, list, 16, marks, 2).refusal,
         M7700_REFUSED_LIST);
}

static void fill_page(void)
{
    memset(page, '.', M7700_EXPLANATION_BYTES + 1);
}

static m7700_explanation explain(size_t image_len, size_t page_len)
{
    fill_page();
    return m7700_explain_image(image, image_len, marks, image_len, BASE, RESET, page, page_len);
}

static void same_line(const char *what, m7700_explanation explanation, const char *line)
{
    same(what, explanation.refusal, 0);
    same(what, explanation.length, strlen(line));
    same(what, memcmp(page, line, strlen(line)) == 0, 1);
    same(what, page[strlen(line)], '.');
}

/* NOP at a start and STP at another, which has a mark of no form, other widths, and the right mark. The longest line is
 * that of a BBC of six bytes. */
static void explanations(void)
{
    static const uint8_t longest[] = {0x3C, 0x34, 0x12, 0x0F, 0x00, 0x00, 0xDB};
    m7700_explanation explanation;

    image[0] = 0xEA;
    image[1] = 0xDB;
    marks[0] = M7700_MARK_START;
    marks[1] = M7700_MARK_M;
    same_line("of a bad mark", explain(2, sizeof page), "4 mark: 00C001 has 02: bits without a start\n");
    marks[1] = M7700_MARK_START | M7700_MARK_X;
    same_line("of other widths", explain(2, M7700_EXPLANATION_BYTES),
              "9 widths: 00C000 EA NOP: 00C001 must be 0 0 N 0 0, is 0 1 N 0 0\n");
    marks[1] = M7700_MARK_START;
    same_line("accepted", explain(2, 9), "accepted\n");
    explanation = explain(2, 8);
    same("a short page", explanation.refusal, M7700_REFUSED_PAGE);
    same("its length", explanation.length, 0);
    same("the page then", page[0], '.');
    memcpy(image, longest, sizeof longest);
    memset(marks, 0, sizeof longest);
    marks[0] = M7700_MARK_START;
    marks[6] = M7700_MARK_START | M7700_MARK_M;
    same_line("the longest line", explain(sizeof longest, M7700_EXPLANATION_BYTES),
              "9 widths: 00C000 3C 34 12 0F 00 00 BBC: 00C006 must be 0 0 N 0 0, is 1 0 N 0 0\n");
    fill_page();
    same_line("of nothing", m7700_explain_image(NULL, 0, NULL, 0, BASE, RESET, page, sizeof page),
              "1 length: image 0, marks 0\n");
    same("no page", m7700_explain_image(NULL, 0, NULL, 0, BASE, RESET, NULL, 0).refusal, M7700_REFUSED_PAGE);
}

static m7700_page_printed print(size_t image_len, size_t page_len)
{
    return m7700_print_page(image, image_len, marks, image_len, BASE, RESET, page, page_len);
}

/* STP at a start, and behind it one at a mark of no form. */
static void pages(void)
{
    m7700_page_printed printed;

    memset(image, 0xDB, 2);
    marks[0] = M7700_MARK_START;
    marks[1] = M7700_MARK_M;
    printed = print(1, M7700_ROW_BYTES);
    same("the page's refusal", printed.refusal, 0);
    same("the page's offset", printed.offset, 0);
    same("the page's length", printed.length, M7700_ROW_BYTES);
    same("the page", memcmp(page, "00C000 DB                STP  0 0 N\n", M7700_ROW_BYTES) == 0, 1);
    printed = print(1, M7700_ROW_BYTES - 1);
    same("a short page", printed.refusal, M7700_REFUSED_PAGE);
    same("its offset", printed.offset, 0);
    same("its length", printed.length, 0);
    printed = print(2, sizeof page);
    same("the page of a bad mark", printed.refusal, M7700_REFUSED_MARK);
    same("the mark's offset", printed.offset, 1);
    same("no length", printed.length, 0);
}

/* So many addresses from the base on. */
static m7700_located locate(size_t image_len, uint32_t count, size_t places_len)
{
    uint32_t i;

    for (i = 0; i < count; i++)
        addresses[i] = BASE + i;
    memset(places, 0, sizeof places);
    return m7700_locate_addresses(image, image_len, marks, image_len, BASE, RESET + 1, addresses, count, places,
                                  places_len);
}

static void same_place(const char *what, uint32_t place, uint32_t kind, uint32_t start)
{
    same(what, M7700_PLACE_KIND(place), kind);
    same(what, M7700_PLACE_START(place), start);
}

/* A byte before the first start, BRA over a gap of two bytes, and STP. */
static void located_places(void)
{
    static const uint8_t code[] = {0xFF, 0x80, 0x02, 0xFF, 0xFF, 0xDB};
    m7700_located located;

    memcpy(image, code, sizeof code);
    memset(marks, 0, sizeof code);
    marks[1] = marks[5] = M7700_MARK_START;
    located = locate(sizeof code, 5, 5);
    same("the addresses' refusal", located.refusal, 0);
    same("the addresses' offset", located.offset, 0);
    same("the marks read", located.marks_read, 5);
    same("a place below", places[0], 0);
    same_place("a place below", places[0], M7700_PLACE_BELOW, 0);
    same_place("a start", places[1], M7700_PLACE_WITHIN, BASE + 1);
    same_place("a later byte", places[2], M7700_PLACE_WITHIN, BASE + 1);
    same_place("a gap", places[3], M7700_PLACE_BEHIND, BASE + 1);
    located = locate(sizeof code, 7, 7);
    same("an address outside", located.refusal, M7700_REFUSED_ADDRESSES);
    same("no marks read", located.marks_read, 0);
    same("few places", locate(sizeof code, 5, 4).refusal, M7700_REFUSED_PAGE);
    marks[4] = M7700_MARK_M;
    located = locate(sizeof code, 5, 5);
    same("the addresses at a bad mark", located.refusal, M7700_REFUSED_MARK);
    same("the mark's offset", located.offset, 4);
}

/* NOP and a last STP, each with a start. */
static void limits(void)
{
    memset(image, 0xEA, sizeof image);
    image[M7700_IMAGE_BYTES - 1] = 0xDB;
    memset(marks, M7700_MARK_START, sizeof marks);
    same("the longest image",
         m7700_check_image(image, M7700_IMAGE_BYTES, marks, M7700_IMAGE_BYTES, BASE, RESET).refusal, 0);
    same("a longer image", m7700_check_image(image, sizeof image, marks, sizeof image, 0, 0).refusal,
         M7700_REFUSED_LENGTH);
    same("the longest list",
         m7700_write_mark_list(marks, M7700_IMAGE_BYTES, BASE, RESET, list, sizeof list).length, M7700_LIST_BYTES);
    same("the longest page", print(M7700_IMAGE_BYTES, sizeof page).length, M7700_PAGE_BYTES);
    same("the most addresses", locate(M7700_IMAGE_BYTES, M7700_ADDRESSES, M7700_ADDRESSES).refusal, 0);
    same("more addresses", locate(M7700_IMAGE_BYTES, M7700_ADDRESSES + 1, M7700_ADDRESSES + 1).refusal,
         M7700_REFUSED_ADDRESSES);
    begin(0);
    same("the most RAM", run(1, M7700_STATE_BYTES, M7700_RAM_BYTES, 0).refusal, 0);
    same("more RAM", run(1, M7700_STATE_BYTES, M7700_RAM_BYTES + 1, 0).refusal, M7700_REFUSED_RAM);
    same("a longer state", run(1, M7700_STATE_BYTES + 1, 1, 0).refusal, M7700_REFUSED_STATE);
    same("the most steps", run(1, M7700_STATE_BYTES, 1, M7700_STEPS).refusal, 0);
    same("more steps", run(1, M7700_STATE_BYTES, 1, M7700_STEPS + 1).refusal, M7700_REFUSED_STEPS);
}

/* JSR C000: a call of itself, until no more can be open. */
static void open_calls(void)
{
    m7700_run_result result = run_code("\x20\x00\xC0\0\0\0\0", 0, 1);

    same("the calls of a JSR", result.calls, 1);
    same("the open calls", word(M7700_AT_DEPTH), 1);
    same("the return address", word(M7700_AT_ENTRY(0)), RESET + 3);
    same("the kind", state[M7700_AT_ENTRY(0) + 4], M7700_KIND_RTS);
    result = run_code("\x20\x00\xC0\0\0\0\0", 0, M7700_STEPS);
    same("the end of calls", result.end, M7700_STOP_DEEP);
    same("the steps before", result.steps, M7700_CALLS);
    same("the last entry's kind", state[M7700_STATE_BYTES - 4], M7700_KIND_RTS);
    put_word(M7700_AT_DEPTH, M7700_CALLS + 1);
    same("more open calls", run(8, M7700_STATE_BYTES, 1, 0).refusal, M7700_REFUSED_STATE);
    result = run_code("\x20\x05\xC0\x80\xFB\x60\0", 0, M7700_STEPS); /* JSR C005, BRA C000, RTS */
    same("the steps of a loop", result.steps, M7700_STEPS);
    same("its calls", result.calls, (M7700_STEPS + 2) / 3);
    run_code("\x22\x00\xC0\x00\0\0\0", 0, 1); /* JSR long */
    same("the kind of JSR long", state[M7700_AT_ENTRY(0) + 4], M7700_KIND_RTL);
}

/* 01's table, and 02's numbers. */
static void words(void)
{
    static const char *const refusals[] = {"none", "length", "base", "reset", "mark", "code", "cut off", "overlap",
                                           "flow", "widths", "return", "RAM", "state", "steps", "list", "page",
                                           "addresses", "routines", "unknown"};
    static const char *const stops[] = {"outside", "uncarried", "halt", "unmapped", "astray", "deep", "image store",
                                        "decimal", "unknown"};
    uint32_t i;

    for (i = 0; i < sizeof refusals / sizeof refusals[0]; i++)
        same_text("a refusal's word", m7700_refusal_word(i), refusals[i]);
    for (i = 0; i < sizeof stops / sizeof stops[0]; i++)
        same_text("a stop's word", m7700_stop_word(20 + i), stops[i]);
    same_text("the word of 0", m7700_stop_word(M7700_DONE), "done");
    same_text("the word of 19", m7700_stop_word(19), "unknown");
}

int main(void)
{
    flags();
    mark_bits();
    marks_built();
    explanations();
    pages();
    located_places();
    limits();
    open_calls();
    words();
    printf("names: %u of %u as expected\n", cases - differing, cases);
    return differing != 0;
}
