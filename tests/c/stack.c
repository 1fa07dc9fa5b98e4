/* stack: how much stack a call of each function takes.
 *
 * Each function is called on a stack of its own whose bytes were painted, with
 * buffers of the greatest sizes. What it took reaches down to the lowest byte
 * that lost its paint; what entering and leaving such a stack takes by itself
 * is subtracted. Where the dynamic linker binds memcpy in the first call that
 * needs it, what that takes is counted there. Prints a line for each function,
 * and the most; the exit status is 1 if the last, which builds marks, is over
 * M7700_BUILD_STACK_BYTES or another is over M7700_STACK_BYTES. */
#define _GNU_SOURCE
#include <stdio.h>
#include <stdlib.h>
#include <string.h>
#include <ucontext.h>

#include "m7700.h"

enum { STACK = 2 * M7700_BUILD_STACK_BYTES, BASE = 0x00C000, RESET = BASE, PAINT = 0xA5 };

static uint8_t stack[STACK], image[M7700_IMAGE_BYTES], marks[M7700_IMAGE_BYTES];
static uint8_t list[M7700_LIST_BYTES], page[M7700_PAGE_BYTES], state[M7700_STATE_BYTES], ram[M7700_RAM_BYTES];
static uint32_t addresses[M7700_ADDRESSES], places[M7700_ADDRESSES];

/* A call of a routine that fills the image, over a bank end: JSR long 00C005; STP; NOP ..; RTL. All but the operand are
 * starts. */
static void make_program(void)
{
    static const uint8_t code[] = {0x22, 0x05, 0xC0, 0x00, 0xDB}, marked[] = {0x01, 0x00, 0x00, 0x00, 0x01};
    uint32_t i;

    memset(image, 0xEA, sizeof image);
    memset(marks, M7700_MARK_START | M7700_KIND_RTL << 3, sizeof marks);
    memcpy(image, code, sizeof code);
    memcpy(marks, marked, sizeof marked);
    image[sizeof image - 1] = 0x6B;
    for (i = 0; i < M7700_ADDRESSES; i++)
        addresses[i] = BASE + i * (M7700_IMAGE_BYTES / M7700_ADDRESSES);
    state[M7700_AT_PC + 1] = RESET >> 8;
    state[M7700_AT_S + 1] = 0x0F;
}

static uint32_t refusal, length;

static void call_nothing(void)
{
}

static void call_check(void)
{
    refusal = m7700_check_image(image, sizeof image, marks, sizeof marks, BASE, RESET).refusal;
}

/* At the image's end: the last mark is not the one that the NOP before it leads to. */
static void call_explain(void)
{
    marks[sizeof marks - 1] ^= M7700_MARK_M;
    refusal = m7700_explain_image(image, sizeof image, marks, sizeof marks, BASE, RESET, page, sizeof page).refusal;
    marks[sizeof marks - 1] ^= M7700_MARK_M;
}

static void call_write(void)
{
    m7700_list_written written = m7700_write_mark_list(marks, sizeof marks, BASE, RESET, list, sizeof list);

    refusal = written.refusal;
    length = (uint32_t)written.length;
}

static void call_read(void)
{
    refusal = m7700_read_mark_list(list, length, marks, sizeof marks).refusal;
}

/* From the routine alone; the marks are as they were. */
static void call_build(void)
{
    static const char routine[] = "00C005\t0\t0\tL\t0\t0\n";

    refusal = m7700_build_image_marks(image, sizeof image, BASE, RESET, (const uint8_t *)routine,
                                      sizeof routine - 1, marks, sizeof marks).refusal;
}

static void call_print(void)
{
    refusal = m7700_print_page(image, sizeof image, marks, sizeof marks, BASE, RESET, page, sizeof page).refusal;
}

static void call_locate(void)
{
    refusal = m7700_locate_addresses(image, sizeof image, marks, sizeof marks, BASE, RESET, addresses,
                                     M7700_ADDRESSES, places, M7700_ADDRESSES).refusal;
}

static void call_step(void)
{
    refusal = m7700_step_image(image, sizeof image, BASE, state, sizeof state, ram, sizeof ram).refusal;
}

static void call_run(void)
{
    refusal = m7700_run_image(image, sizeof image, BASE, state, sizeof state, ram, sizeof ram, M7700_STEPS).refusal;
}

/* The bytes between the top of the stack and the lowest that a call touched. */
static size_t touched(void (*call)(void))
{
    static ucontext_t here, there;
    size_t at = 0;

    memset(stack, PAINT, sizeof stack);
    getcontext(&there);
    there.uc_stack.ss_sp = stack;
    there.uc_stack.ss_size = sizeof stack;
    there.uc_link = &here;
    makecontext(&there, call, 0);
    swapcontext(&here, &there);
    while (at < sizeof stack && stack[at] == PAINT)
        at++;
    return sizeof stack - at;
}

int main(void)
{
    static const struct {
        const char *name;
        void (*call)(void);
    } calls[] = {
        {"check", call_check}, {"explain", call_explain}, {"write", call_write},
        {"read", call_read},   {"print", call_print},     {"locate", call_locate},
        {"step", call_step},   {"run", call_run},         {"build", call_build},
    };
    size_t without = touched(call_nothing), most = 0, took = 0, i;

    make_program();
    for (i = 0; i < sizeof calls / sizeof calls[0]; i++) {
        most = took > most ? took : most;
        took = touched(calls[i].call) - without;
        printf("stack: %s %zu\n", calls[i].name, took);
        if (refusal != 0) {
            printf("stack: %s refused: %u %s\n", calls[i].name, refusal, m7700_refusal_word(refusal));
            return 1;
        }
    }
    printf("stack: at most %zu of %d bytes, to build marks %zu of %d\n", most, M7700_STACK_BYTES, took,
           M7700_BUILD_STACK_BYTES);
    return most > M7700_STACK_BYTES || took > M7700_BUILD_STACK_BYTES;
}
