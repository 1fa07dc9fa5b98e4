/* NAME
 *
 * m7700 - check MELPS 7700 code against its width marks, print it and run it
 *
 * SYNOPSIS
 *
 *     #include <m7700.h>
 *
 *     cc loader.c $(pkg-config --cflags --libs m7700)
 *
 * DESCRIPTION
 *
 * Before it releases an image, a loader in C reads the image's mark list, or
 * builds the marks from a list of its routines, checks the image against them,
 * asks what to mend where it is refused, and may print it and run it step by
 * step. Each of these functions gives a struct of its own type. Its member
 * `refusal` is 0, or the number that refuses the call; then the other members
 * are 0, but for the offset of the check, and every buffer is as given.
 *
 * Two conditions on pointers are left to the caller, since C can't express
 * them. Nothing else is asked:
 *
 *   - A pointer is valid for its length: so many bytes may be read there, and
 *     written where the function writes. At length 0 any pointer will do.
 *   - A buffer that a function writes overlaps no other. Image and marks are
 *     only read by the check, for an explanation, for a page and for places,
 *     and may overlap each other there.
 */
#ifndef M7700_H
#define M7700_H

#include <stddef.h>
#include <stdint.h>

#ifdef __cplusplus
extern "C" {
#endif

#define M7700_VERSION "3.1.0"

/* SYSTEM
 *
 * The library is for Linux on x86-64. Of the C library it needs no more than
 * memcpy and memset. It has no data of its own, so threads may call it at the
 * same time, each with its own buffers; those that are only read may be shared.
 *
 * No call needs more stack than the bytes below, the second number for the
 * building of marks, the first for any other call. Measured, on a stack of
 * painted bytes and with the longest buffers: 270,248 for marks, 8,264 for an
 * explanation, 7,992 for a page, 7,976 for addresses, 5,144 for a run or a
 * step, 4,056 for a check, 184 for a list, and some 3,200 more for a call in
 * which memcpy or memset is first bound by the dynamic linker. */
#define M7700_STACK_BYTES 16384
#define M7700_BUILD_STACK_BYTES 278528

/* LIMITS
 *
 * The longest image; a page that every explanation fits in, as no line is
 * longer; the longest list, 22 bytes of a first line and 17 for each start; the
 * most routines that marks are built from; a row of a page, and the longest
 * page; the most addresses in one reading; the most RAM, steps of a run, and
 * open calls. */
#define M7700_IMAGE_BYTES 65536
#define M7700_EXPLANATION_BYTES 81
#define M7700_LIST_BYTES (22 + 17 * M7700_IMAGE_BYTES)
#define M7700_ROUTINES 256
#define M7700_ROW_BYTES 36
#define M7700_PAGE_BYTES (M7700_ROW_BYTES * M7700_IMAGE_BYTES)
#define M7700_ADDRESSES 256
#define M7700_RAM_BYTES 4096
#define M7700_STEPS 1000000
#define M7700_CALLS 24

/* MARKS
 *
 * An image is MELPS 7700 code at a 24-bit base address, ending at or below
 * FFFFFF; it may cross the ends of banks, which have 65,536 bytes. Beside it
 * lies one mark byte for each image byte. The bits of a mark: */
#define M7700_MARK_START 0x01    /* an instruction starts here */
#define M7700_MARK_M 0x02        /* m there */
#define M7700_MARK_X 0x04        /* x there */
#define M7700_MARK_KIND 0x18     /* how the routine returns, kind << 3 */
#define M7700_MARK_RETURN_M 0x20 /* m at that return */
#define M7700_MARK_RETURN_X 0x40 /* x at that return */

/* The kinds of return, in marks and in open calls: */
#define M7700_KIND_NONE 0 /* the routine does not return */
#define M7700_KIND_RTS 1  /* called by JSR, returns by RTS */
#define M7700_KIND_RTL 2  /* called by JSR long, returns by RTL */

/* A byte without a start has mark 0; under kind 0 both bits of the return are
 * 0; kind 3 and bit 7 are unused.
 *
 * REFUSALS
 *
 * The numbers that refuse a call, each with its word and when it is given.
 * Which of them a function tests, and in which order, stands with it. */
#define M7700_REFUSED_LENGTH 1  /* length: image empty or over
                                   M7700_IMAGE_BYTES; marks of another
                                   length */
#define M7700_REFUSED_BASE 2    /* base: above FFFFFF, or image ends above
                                   it; of a list in four digits, image
                                   crosses a bank end */
#define M7700_REFUSED_RESET 3   /* reset: no start with m=0, x=0, kind 0
                                   at the reset address */
#define M7700_REFUSED_MARK 4    /* mark: a mark not of the form above */
#define M7700_REFUSED_CODE 5    /* code: code at a start is not
                                   carried */
#define M7700_REFUSED_CUT_OFF 6 /* cut off: instruction, or code behind a
                                   prefix, runs past the image */
#define M7700_REFUSED_OVERLAP 7 /* overlap: start inside an
                                   instruction */
#define M7700_REFUSED_FLOW 8    /* flow: successor, call target or
                                   address after a call is no start */
#define M7700_REFUSED_WIDTHS 9  /* widths: one of those breaks its rule
                                   on widths, kind or return */
#define M7700_REFUSED_RETURN 10 /* return: RTS or RTL not under its kind
                                   or not at its return widths */
#define M7700_REFUSED_RAM 11    /* RAM: empty, over M7700_RAM_BYTES, or
                                   more bytes than the base's number */
#define M7700_REFUSED_STATE 12  /* state: a buffer of another length, PS
                                   bits 11 to 15 set, over M7700_CALLS
                                   open calls, or among them a kind other
                                   than 1 or 2 or an address above
                                   FFFFFF */
#define M7700_REFUSED_STEPS 13  /* steps: over M7700_STEPS */
#define M7700_REFUSED_LIST 14   /* list: text is not a mark list, or not
                                   a routine list */
#define M7700_REFUSED_PAGE 15   /* page: output buffer shorter than the
                                   list, the rows or the explanation;
                                   fewer places than addresses */
#define M7700_REFUSED_ADDRESSES 16 /* addresses: over M7700_ADDRESSES, not
                                      strictly ascending, or one outside
                                      the image */
#define M7700_REFUSED_ROUTINES 17  /* routines: over M7700_ROUTINES, one
                                      outside the image, or no marking
                                      that fits them */

/* Not carried are BRK, RTI, PLP, PSH, PUL, MVN, MVP, MPY, DIV, every JMP or JSR
 * through memory, and every unassigned code or prefix pair.
 *
 * The word of a number, "none" for 0 and "unknown" for any other: */
static inline const char *m7700_refusal_word(uint32_t number);

/* CHECK
 *
 * Checks an image against its marks. `base` is the 24-bit address of the first
 * image byte, `reset` that of the first instruction (outside the image, it is
 * refused with 3).
 *
 * The image is accepted if `refusal` is 0. The tests go in the order 1, 2, 4,
 * 3, then each start in turn from the lowest for 5, 6, 7, 10, 8, 9; the first
 * that fails decides. The offset is that of the lowest bad mark for 4, of the
 * start for 5 to 10, and 0 for 1, 2 and 3.
 *
 * Every length, base and reset and every byte of image and marks is answered.
 * The function reads only image and marks, writes nothing, and keeps no
 * pointer. */
typedef struct {
    uint32_t refusal;
    uint32_t offset;
} m7700_verdict;

static inline m7700_verdict
m7700_check_image(const uint8_t *image, size_t image_len,
                  const uint8_t *marks, size_t marks_len,
                  uint32_t base, uint32_t reset);

/* EXPLAINING
 *
 * Says in one line what the check's answer is about: its offset names the
 * instruction whose rule is broken, and the mark that is wrong may stand
 * elsewhere. The line is text at the front of a page, closed by 0A.
 *
 *     accepted
 *     1 length: image 7, marks 6
 *     2 base: 00FFFFFF, length 2
 *     3 reset: 0000C004 must be 0 0 N 0 0, is 1 0 N 0 0
 *     3 reset: 0000C001 must be 0 0 N 0 0, is no start
 *     3 reset: 0001C000 must be 0 0 N 0 0, is outside the image
 *     4 mark: 00C001 has 08: bits without a start
 *     4 mark: 00C003 has 81: bit 7
 *     4 mark: 00C003 has 19: kind 3
 *     4 mark: 00C003 has 21: return widths of kind N
 *     5 code: 00C001 00 BRK: not carried
 *     5 code: 00C001 42 00 ---: not carried
 *     6 cut off: 00C001 A9 12 LDA: 1 missing
 *     6 cut off: 00C001 42: the code is missing
 *     7 overlap: 00C000 A9 12 DB LDA: 00C002 starts inside it
 *     8 flow: 00C004 49 56 EOR: 00C006 is no start
 *     8 flow: 00C000 80 80 BRA: 00BF82 is outside the image
 *     9 widths: 00C003 F8 SEM: 00C004 must be 1 0 N 0 0, is 0 0 N 0 0
 *     9 widths: 00C000 20 04 C0 JSR: 00C004 must be 0 0 S - -, is 0 0 N 0 0
 *     10 return: 00C001 60 RTS: returns S 0 0, is marked L 0 0
 *
 * The line begins with the check's number and its word. For 1 it has both
 * lengths; for 2 base and length; for 3 the reset address, with the mark that
 * must stand there and the one that does; for 4 the address of the mark, its
 * byte, and the first of these four parts that is not of the form.
 *
 * From 5 on the first address is that of the start whose rule is broken. Then
 * come the bytes of its instruction, for 5 prefix and code alone, for 6 those
 * that the image has; then its word as on a page, or --- for a code that the
 * manual does not assign. Behind these
 *
 *      6  how many bytes are missing
 *      7  the lowest start inside the instruction
 *      8  the first address without a start, in or outside the image
 *      9  the first address with another mark than must stand there,
 *         the mark that must, and the one that does
 *     10  the instruction's kind with the widths there, and the kind
 *         with the return widths that are marked
 *
 * Of two addresses that an instruction leads to, the next one comes before a
 * branch's target, and a call's target before the address after it. A mark is
 * shown as in a list: m, x, kind, m and x at the return. A call leaves the
 * last two of its target free; these are shown as -. An address has six
 * hexadecimal digits, a base or reset eight, as it was given; counts are
 * decimal.
 *
 * The one test is
 *
 *     15  the page is shorter than the line
 *
 * whatever the check says of the image: if the line was written, `refusal` is
 * 0. Then `length` is the line's length in bytes, M7700_EXPLANATION_BYTES at
 * most, and the bytes of the page behind it are as given.
 *
 * Every length, base and reset and every byte of image and marks is answered.
 * The function reads only image and marks, writes only the page, and keeps no
 * pointer. */
typedef struct {
    uint32_t refusal;
    size_t length;
} m7700_explanation;

static inline m7700_explanation
m7700_explain_image(const uint8_t *image, size_t image_len,
                    const uint8_t *marks, size_t marks_len,
                    uint32_t base, uint32_t reset,
                    uint8_t *page, size_t page_len);

/* MARK LISTS
 *
 * A mark list is text, one record a line, its fields parted by one tab (09),
 * each line closed by 0A. The first line is I and
 *
 *     base     six hexadecimal digits
 *     length   1 to 5 decimal digits without a leading zero
 *     reset    six hexadecimal digits
 *
 * Then comes a line for each start, ascending:
 *
 *     address  six hexadecimal digits
 *     m, x     there
 *     kind     N, S or L for 0, 1, 2
 *     m, x     at the return, 0 under N
 *
 * Hexadecimal letters are capitals. A start's address is one of the length's
 * many from the base on.
 *
 * An older list has four digits in the reset and in every address: they lie in
 * the base's bank, from the base's low 16 bits on, up to FFFF. Such a list is
 * read too, but for an image that crosses a bank end; none is written. A list
 * with six digits in some and four in others is no list.
 *
 * READING A LIST
 *
 * Reads a list into marks of the image's length, `marks_len`. The tests go in
 * the order
 *
 *     14  the text is not a list, by its own length, whatever
 *         marks_len is
 *      1  the list's length is 0 or over M7700_IMAGE_BYTES, or
 *         marks_len is another
 *      2  the list's base and length end above FFFFFF, or, in four
 *         digits, cross a bank end
 *      3  the list has no start with m=0, x=0, kind 0 at its reset
 *         address
 *
 * and the first that fails decides. If the list was read, every mark is
 * written: 0 where no instruction starts; base and reset are 24-bit addresses,
 * of a list in four digits too. A check of the image with these marks, base
 * and reset can still refuse it, by 5 to 10 alone: the list settles 1, 2, 3
 * and 4, and nothing of the code.
 *
 * Every text and every length is answered. The function reads only the text,
 * writes only the marks, and keeps no pointer. */
typedef struct {
    uint32_t refusal;
    uint32_t base;
    uint32_t reset;
} m7700_list_read;

static inline m7700_list_read
m7700_read_mark_list(const uint8_t *text, size_t text_len,
                     uint8_t *marks, size_t marks_len);

/* WRITING A LIST
 *
 * Writes the list of marks at the front of a page. The tests go in the order
 *
 *      1  no marks, or over M7700_IMAGE_BYTES
 *      2  base above FFFFFF, or base and marks_len end above it
 *      4  a mark not of the form above
 *      3  no mark 01 at the reset address
 *     15  the page is shorter than the list
 *
 * and the first that fails decides. If the list was written, `length` is its
 * length in bytes, and the bytes of the page behind it are as given. What was
 * written, read into marks of the same length, gives the same marks, base and
 * reset; and a list in six digits that was read is written as the same bytes,
 * one in four as the list in six digits of the same marks.
 *
 * Every base, reset and length and every mark is answered. The function reads
 * only the marks, writes only the page, and keeps no pointer. */
typedef struct {
    uint32_t refusal;
    size_t length;
} m7700_list_written;

static inline m7700_list_written
m7700_write_mark_list(const uint8_t *marks, size_t marks_len,
                      uint32_t base, uint32_t reset,
                      uint8_t *page, size_t page_len);

/* BUILDING MARKS
 *
 * Builds the marks of an image whose supplier sends no marks but a routine
 * list: lines of starts as a mark list has them, without the first line,
 * strictly ascending, a line for each routine with its first address, m and x
 * there, its kind, and m and x at its return. All addresses have six digits
 * or, in an older list, all have four. A text without lines is a routine list
 * too, and counts as one in six.
 *
 * What is looked for is a marking that
 *
 *   - the check accepts for the image with this base and reset,
 *   - has a start for each routine, marked as listed,
 *   - has all call targets on the list.
 *
 * The tests go in the order
 *
 *     14  the text is not a routine list
 *      1  image empty or over M7700_IMAGE_BYTES, or marks_len is
 *         another length
 *      2  base above FFFFFF, or image ends above it, or, with a list
 *         in four digits, crosses a bank end
 *     17  a routine outside the image, over M7700_ROUTINES, or no
 *         such marking
 *
 * and the first that fails decides. If the marks were built, every mark is
 * written, and they are the least such marking: each start in them stands,
 * equally marked, in every other one. A check of the image with these marks
 * accepts it.
 *
 * Every length, base and reset and every byte of image and text is answered.
 * The function reads only image and text, writes only the marks, and keeps no
 * pointer. */
typedef struct {
    uint32_t refusal;
} m7700_marks_built;

static inline m7700_marks_built
m7700_build_image_marks(const uint8_t *image, size_t image_len,
                        uint32_t base, uint32_t reset,
                        const uint8_t *routines, size_t routines_len,
                        uint8_t *marks, size_t marks_len);

/* PRINTING
 *
 * Prints an accepted image at the front of a page, a row for each start,
 * ascending. A row has 35 columns and 0A, and in them
 *
 *     1 to 6    the address, six hexadecimal digits
 *     8 to 24   all bytes of the instruction, two hexadecimal digits
 *               each, parted by one blank
 *     26 to 29  the first word of the manual's syntax for the form
 *     31, 33    m and x, as marked there
 *     35        kind: N, S or L for 0, 1, 2
 *
 * Each field begins in its first column, and every other column is a blank.
 * Hexadecimal letters are capitals. The word adds an L to the instruction's
 * name in ADCL A,(dd) and the other forms through a pointer of three bytes, in
 * JMPL and JSRL to a long address, and in BRAL.
 *
 * The tests go in the order of the check's, and then
 *
 *     15  the page is shorter than the rows
 *
 * and the first that fails decides. The offset is the check's, and 0 for 15.
 * If the image was printed, `length` is the length of its rows in bytes,
 * M7700_ROW_BYTES for each start, and the bytes of the page behind them are as
 * given. The bytes that the rows show, one row behind the other, are exactly
 * those that instructions cover.
 *
 * Every length, base and reset and every byte of image and marks is answered.
 * The function reads only image and marks, writes only the page, and keeps no
 * pointer. */
typedef struct {
    uint32_t refusal;
    uint32_t offset;
    size_t length;
} m7700_page_printed;

static inline m7700_page_printed
m7700_print_page(const uint8_t *image, size_t image_len,
                 const uint8_t *marks, size_t marks_len,
                 uint32_t base, uint32_t reset,
                 uint8_t *page, size_t page_len);

/* LOCATING ADDRESSES
 *
 * Says where each of some addresses, such as a bus probe delivers, lies in an
 * accepted image. They are strictly ascending. The tests go in the order of
 * the check's, and then
 *
 *     16  over M7700_ADDRESSES, an address that is not above the one
 *         before it, or one outside the image
 *     15  fewer places than addresses
 *
 * and the first that fails decides. The offset is the check's, and 0 for 16
 * and 15. If the addresses were located, the place of each stands at its own
 * index, and the places behind them are as given. A place is the address of
 * the nearest start at or below, and what the address is to it: */
#define M7700_PLACE_START(place) ((place)&0xFFFFFF)
#define M7700_PLACE_KIND(place) ((place) >> 24)
#define M7700_PLACE_BELOW 0  /* below the first start; the place is 0 */
#define M7700_PLACE_WITHIN 1 /* in the instruction that starts there */
#define M7700_PLACE_BEHIND 2 /* in the gap behind that instruction */

/* Each place is the one that a call with its address alone gives. The marks
 * are passed over once, from low to high, and `marks_read` says how many were
 * read so: the offset of the highest address plus one, 0 for no addresses.
 *
 * Every length, base and reset, every byte of image and marks and every
 * address is answered. The function reads only image, marks and addresses,
 * writes only the places, and keeps no pointer. The lengths of addresses and
 * places count numbers, not bytes. */
typedef struct {
    uint32_t refusal;
    uint32_t offset;
    uint32_t marks_read;
} m7700_located;

static inline m7700_located
m7700_locate_addresses(const uint8_t *image, size_t image_len,
                       const uint8_t *marks, size_t marks_len,
                       uint32_t base, uint32_t reset,
                       const uint32_t *addresses, size_t addresses_len,
                       uint32_t *places, size_t places_len);

/* MACHINE
 *
 * The stepping machine runs an image in lent RAM from a lent state. RAM lies
 * from address 000000 on, and the image above it. So RAM has 1 byte at least
 * and as many as the lesser of M7700_RAM_BYTES and `base` at most, and an
 * image at base 0 can't run. Image bytes may be read as data. Nothing else is
 * mapped.
 *
 * The state is M7700_STATE_BYTES bytes: the registers, the number of open
 * calls, and an entry for each call that can be open. Numbers go low byte
 * first. Where each begins: */
#define M7700_AT_A 0      /* two bytes each */
#define M7700_AT_B 2
#define M7700_AT_X 4
#define M7700_AT_Y 6
#define M7700_AT_S 8
#define M7700_AT_PC 10
#define M7700_AT_DPR 12
#define M7700_AT_PS 14
#define M7700_AT_PG 16    /* a byte each */
#define M7700_AT_DT 17
#define M7700_AT_DEPTH 18 /* the number of open calls, two bytes */
#define M7700_AT_ENTRY(call) (20 + 8 * (call))
#define M7700_STATE_BYTES M7700_AT_ENTRY(M7700_CALLS)

/* An entry, from 0 on and the first opened first, has a return address in four
 * bytes, a kind in one (1 or 2) and three reserved bytes. Its bytes change
 * only when a call is opened there, the reserved ones then to 0; closing it
 * leaves them. Reserved bytes and the entries behind the open calls are not
 * looked at.
 *
 * The bits of PS; bits 11 to 15 are 0: */
#define M7700_PS_C 0x0001
#define M7700_PS_Z 0x0002
#define M7700_PS_I 0x0004
#define M7700_PS_D 0x0008
#define M7700_PS_X 0x0010 /* x: 1 for 8 bits of X and Y */
#define M7700_PS_M 0x0020 /* m: 1 for 8 bits of data */
#define M7700_PS_V 0x0040
#define M7700_PS_N 0x0080
#define M7700_PS_IPL 0x0700

/* A state of zeros is valid: m=0, x=0, no open call. To begin at the reset,
 * put into PC the reset address (its low 16 bits), into PG its bank (reset >>
 * 16), and into S where the stack is to begin, say the last address of RAM.
 *
 * RUN
 *
 * Runs an image for 0 to M7700_STEPS steps, or until one stops. The tests go
 * in the order 1 (image empty or over M7700_IMAGE_BYTES), 2, 11, 12, 13, and
 * the first that fails decides. If the run is not refused, `end` says how it
 * ended, its steps done or by a stop: */
#define M7700_DONE 0
#define M7700_STOP_OUTSIDE 20     /* outside: instruction byte not in the
                                     image */
#define M7700_STOP_UNCARRIED 21   /* uncarried: code not carried */
#define M7700_STOP_HALT 22        /* halt: STP or WIT */
#define M7700_STOP_UNMAPPED 23    /* unmapped: data or stack byte not
                                     mapped */
#define M7700_STOP_ASTRAY 24      /* astray: RTS or RTL with no open
                                     call, with one of the other kind, or
                                     the pulled address is not the open
                                     call's */
#define M7700_STOP_DEEP 25        /* deep: call with M7700_CALLS open */
#define M7700_STOP_IMAGE_STORE 26 /* image store: store into the image */
#define M7700_STOP_DECIMAL 27     /* decimal: ADC or SBC with D=1 */

/* The word of an end, "unknown" for any other number: */
static inline const char *m7700_stop_word(uint32_t number);

/* `steps` is the number of completed steps, `calls` the number of calls (JSR,
 * long or not) among them. State and RAM are as the last completed step left
 * them, or as given if there is none: a stop undoes its whole step, so PG and
 * PC still name the instruction that met it. A step tests its code bytes for
 * 20, then for 21, its operand bytes for 20, then for 22 and 27, its reads for
 * 23, then for 24 or 25, and its stores for 23 or 26. A word's low byte goes
 * first, a push as it is pushed; the first byte that can't be served decides.
 *
 * JMP and JSR absolute, and RTS, go to the bank of the address just after them.
 * RTS stops with 24 where the open call's address has another bank, as it may
 * for an RTS in the last byte of a bank or in a routine that runs over a bank
 * end; the check refuses neither.
 *
 * A run takes no marks and asks for no check. But let the check have accepted
 * the image with its marks and base, and let a run begin with PG and PC at a
 * marked start, m and x in PS as marked there, and no open call, whatever the
 * other registers and RAM hold. Then this run, and each further one from the
 * state and RAM that the last one left, ends only with its steps done or by
 * 22 to 27, never by 20 or 21, unless it is refused: each of its steps begins
 * at a marked start with the marked widths.
 *
 * Every length, base and number of steps and every byte of image, state and
 * RAM is answered. The function reads only image, state and RAM, writes only
 * state and RAM, and keeps no pointer. */
typedef struct {
    uint32_t refusal;
    uint32_t end;
    uint32_t steps;
    uint32_t calls;
} m7700_run_result;

static inline m7700_run_result
m7700_run_image(const uint8_t *image, size_t image_len, uint32_t base,
                uint8_t *state, size_t state_len,
                uint8_t *ram, size_t ram_len,
                uint32_t steps);

/* Does one step: in its result and in what it leaves the same as a run with 1
 * for the number of steps. */
static inline m7700_run_result
m7700_step_image(const uint8_t *image, size_t image_len, uint32_t base,
                 uint8_t *state, size_t state_len,
                 uint8_t *ram, size_t ram_len);

/* OTHER LANGUAGES
 *
 * These nine functions are what the archive has. They take the arguments of
 * those above and return the members as one number, each in its own way, so
 * that one function's number says something else if it is read as another's.
 * From C, call those above.
 *
 * Bits 0 to 15 are the offset, bits 16 to 31 the refusal: */
uint32_t m7700_check(const uint8_t *image, size_t image_len,
                     const uint8_t *marks, size_t marks_len,
                     uint32_t base, uint32_t reset);

/* Bits 0 to 7 are the refusal, bits 8 to 63 length: */
uint64_t m7700_explain(const uint8_t *image, size_t image_len,
                       const uint8_t *marks, size_t marks_len,
                       uint32_t base, uint32_t reset,
                       uint8_t *page, size_t page_len);

/* Bits 0 to 7 are the refusal, bits 8 to 31 base, bits 32 to 55 reset: */
uint64_t m7700_read_list(const uint8_t *text, size_t text_len,
                         uint8_t *marks, size_t marks_len);

/* Bits 0 to 7 are the refusal, bits 8 to 63 length: */
uint64_t m7700_write_list(const uint8_t *marks, size_t marks_len,
                          uint32_t base, uint32_t reset,
                          uint8_t *page, size_t page_len);

/* Bits 0 to 7 are the refusal: */
uint64_t m7700_build_marks(const uint8_t *image, size_t image_len,
                           uint32_t base, uint32_t reset,
                           const uint8_t *routines, size_t routines_len,
                           uint8_t *marks, size_t marks_len);

/* Bits 0 to 7 are the refusal, bits 8 to 63 length or, if the call is refused,
 * the offset: */
uint64_t m7700_print(const uint8_t *image, size_t image_len,
                     const uint8_t *marks, size_t marks_len,
                     uint32_t base, uint32_t reset,
                     uint8_t *page, size_t page_len);

/* Bits 0 to 7 are the refusal, bits 8 to 63 marks_read or, if the call is
 * refused, the offset: */
uint64_t m7700_locate(const uint8_t *image, size_t image_len,
                      const uint8_t *marks, size_t marks_len,
                      uint32_t base, uint32_t reset,
                      const uint32_t *addresses, size_t addresses_len,
                      uint32_t *places, size_t places_len);

/* Bits 0 to 7 are the refusal, bits 8 to 15 the end, bits 16 to 39 steps, bits
 * 40 to 63 calls: */
uint64_t m7700_run(const uint8_t *image, size_t image_len,
                   uint32_t base,
                   uint8_t *state, size_t state_len,
                   uint8_t *ram, size_t ram_len,
                   uint32_t steps);
uint64_t m7700_step(const uint8_t *image, size_t image_len,
                    uint32_t base,
                    uint8_t *state, size_t state_len,
                    uint8_t *ram, size_t ram_len);

/* SEE ALSO
 *
 * check(1), marks(1), print(1)
 */

/* ---- The text above is m7700(3) too. Here is what its functions do. ----
 *
 * No cast is written, since C and C++ spell it in two ways: a mask keeps what
 * the smaller type holds. */

static inline const char *m7700_refusal_word(uint32_t number)
{
    switch (number) {
    case 0: return "none";
    case M7700_REFUSED_LENGTH: return "length";
    case M7700_REFUSED_BASE: return "base";
    case M7700_REFUSED_RESET: return "reset";
    case M7700_REFUSED_MARK: return "mark";
    case M7700_REFUSED_CODE: return "code";
    case M7700_REFUSED_CUT_OFF: return "cut off";
    case M7700_REFUSED_OVERLAP: return "overlap";
    case M7700_REFUSED_FLOW: return "flow";
    case M7700_REFUSED_WIDTHS: return "widths";
    case M7700_REFUSED_RETURN: return "return";
    case M7700_REFUSED_RAM: return "RAM";
    case M7700_REFUSED_STATE: return "state";
    case M7700_REFUSED_STEPS: return "steps";
    case M7700_REFUSED_LIST: return "list";
    case M7700_REFUSED_PAGE: return "page";
    case M7700_REFUSED_ADDRESSES: return "addresses";
    case M7700_REFUSED_ROUTINES: return "routines";
    default: return "unknown";
    }
}

static inline const char *m7700_stop_word(uint32_t number)
{
    switch (number) {
    case M7700_DONE: return "done";
    case M7700_STOP_OUTSIDE: return "outside";
    case M7700_STOP_UNCARRIED: return "uncarried";
    case M7700_STOP_HALT: return "halt";
    case M7700_STOP_UNMAPPED: return "unmapped";
    case M7700_STOP_ASTRAY: return "astray";
    case M7700_STOP_DEEP: return "deep";
    case M7700_STOP_IMAGE_STORE: return "image store";
    case M7700_STOP_DECIMAL: return "decimal";
    default: return "unknown";
    }
}

static inline m7700_verdict
m7700_check_image(const uint8_t *image, size_t image_len,
                  const uint8_t *marks, size_t marks_len,
                  uint32_t base, uint32_t reset)
{
    const uint32_t packed = m7700_check(image, image_len, marks, marks_len,
                                        base, reset);
    m7700_verdict verdict;

    verdict.refusal = packed >> 16;
    verdict.offset = packed & 0xFFFF;
    return verdict;
}

static inline m7700_explanation
m7700_explain_image(const uint8_t *image, size_t image_len,
                    const uint8_t *marks, size_t marks_len,
                    uint32_t base, uint32_t reset,
                    uint8_t *page, size_t page_len)
{
    const uint64_t packed = m7700_explain(image, image_len, marks, marks_len,
                                          base, reset, page, page_len);
    m7700_explanation explanation;

    explanation.refusal = packed & 0xFF;
    explanation.length = packed >> 8;
    return explanation;
}

static inline m7700_list_read
m7700_read_mark_list(const uint8_t *text, size_t text_len,
                     uint8_t *marks, size_t marks_len)
{
    const uint64_t packed = m7700_read_list(text, text_len, marks, marks_len);
    m7700_list_read read;

    read.refusal = packed & 0xFF;
    read.base = packed >> 8 & 0xFFFFFF;
    read.reset = packed >> 32 & 0xFFFFFF;
    return read;
}

static inline m7700_list_written
m7700_write_mark_list(const uint8_t *marks, size_t marks_len,
                      uint32_t base, uint32_t reset,
                      uint8_t *page, size_t page_len)
{
    const uint64_t packed = m7700_write_list(marks, marks_len, base, reset,
                                             page, page_len);
    m7700_list_written written;

    written.refusal = packed & 0xFF;
    written.length = packed >> 8;
    return written;
}

static inline m7700_marks_built
m7700_build_image_marks(const uint8_t *image, size_t image_len,
                        uint32_t base, uint32_t reset,
                        const uint8_t *routines, size_t routines_len,
                        uint8_t *marks, size_t marks_len)
{
    const uint64_t packed = m7700_build_marks(image, image_len, base, reset,
                                              routines, routines_len,
                                              marks, marks_len);
    m7700_marks_built built;

    built.refusal = packed & 0xFF;
    return built;
}

static inline m7700_page_printed
m7700_print_page(const uint8_t *image, size_t image_len,
                 const uint8_t *marks, size_t marks_len,
                 uint32_t base, uint32_t reset,
                 uint8_t *page, size_t page_len)
{
    const uint64_t packed = m7700_print(image, image_len, marks, marks_len,
                                        base, reset, page, page_len);
    m7700_page_printed printed;

    printed.refusal = packed & 0xFF;
    printed.offset = printed.refusal == 0 ? 0 : packed >> 8 & 0xFFFFFFFF;
    printed.length = printed.refusal == 0 ? packed >> 8 : 0;
    return printed;
}

static inline m7700_located
m7700_locate_addresses(const uint8_t *image, size_t image_len,
                       const uint8_t *marks, size_t marks_len,
                       uint32_t base, uint32_t reset,
                       const uint32_t *addresses, size_t addresses_len,
                       uint32_t *places, size_t places_len)
{
    const uint64_t packed = m7700_locate(image, image_len, marks, marks_len,
                                         base, reset, addresses, addresses_len,
                                         places, places_len);
    const uint32_t above = packed >> 8 & 0xFFFFFFFF;
    m7700_located located;

    located.refusal = packed & 0xFF;
    located.offset = located.refusal == 0 ? 0 : above;
    located.marks_read = located.refusal == 0 ? above : 0;
    return located;
}

/* What a run or a step returned: a type of its own, so that no other function's
 * number is unpacked as a run's. */
typedef struct {
    uint64_t packed;
} m7700_packed_run;

static inline m7700_run_result m7700_unpacked_run(m7700_packed_run run)
{
    const uint64_t counts = run.packed >> 16;
    m7700_run_result result;

    result.refusal = run.packed & 0xFF;
    result.end = run.packed >> 8 & 0xFF;
    result.steps = counts & 0xFFFFFF;
    result.calls = counts >> 24 & 0xFFFFFF;
    return result;
}

static inline m7700_run_result
m7700_run_image(const uint8_t *image, size_t image_len, uint32_t base,
                uint8_t *state, size_t state_len,
                uint8_t *ram, size_t ram_len,
                uint32_t steps)
{
    const m7700_packed_run run = {m7700_run(image, image_len, base, state,
                                            state_len, ram, ram_len, steps)};

    return m7700_unpacked_run(run);
}

static inline m7700_run_result
m7700_step_image(const uint8_t *image, size_t image_len, uint32_t base,
                 uint8_t *state, size_t state_len,
                 uint8_t *ram, size_t ram_len)
{
    const m7700_packed_run run = {m7700_step(image, image_len, base, state,
                                             state_len, ram, ram_len)};

    return m7700_unpacked_run(run);
}

#ifdef __cplusplus
}
#endif

#endif
