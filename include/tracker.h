/* The gate-level trust tracker, for C.
 *
 * Since this version the state of tracker_power_up, tracker_step and tracker_run has R + 2 bytes, where it had R: behind the R register bytes, the last
 * two are the number of marked registers, low byte first. These calls refuse a state of R bytes with 10, and a step and a run one whose last two bytes
 * are wrong with 20. The state of the static calls still has R bytes.
 *
 * The numbers of verdicts differ from those of the release before: clear is 65,535, where it was 0, and a flow is its net, where it was its net + 1.
 * Programs that read them by themselves have to be changed, and those that read them by the functions at the end of this file to be compiled anew.
 * A register with start 2 wakes with byte 2, an untrusted 0, where it woke with 0, and its mark register in the doubled netlist starts at 1.
 * The top bit of a pin, with which an image was refused with 5, inverts it.
 * A MUX between two trusted ones that an untrusted pin selects is unmarked, where it was marked, and the second net of a MUX's group in the doubled
 * netlist is a XOR, where it was an OR.
 *
 * An image holds a netlist: four u16 sizes, low byte first, namely N nets, I inputs, R registers and O outputs; then N kind bytes; then N entries of
 * three u16 operands a, b and c. Its length is 8 + 7 x N. A byte of a pin, a register or a net is value + 2 x mark; mark 1 is untrusted. A gate is marked
 * exactly if other values of its marked pins would change its value.
 *
 *   kind                operands; an operand that is not listed is 0                                  nets in the doubled netlist
 *   0 CONST             a is 0 or 1                                                                   2
 *   1 INPUT             none                                                                          2
 *   2 REG               a: the net taken at the clock, below N; b: start 0, 1, or 2 for none given    2
 *   3 NOT               a: a net below its own                                                        2
 *   4 AND, 5 OR, 6 XOR  a and b: nets below its own                                                   6, 8, 2
 *   7 MUX               nets below its own: gives a if c is 0, b if c is 1                            7
 *   8 OUT               a: a net below its own; b: 0 free, 1 protected                                2
 *
 * An operand that names a net is a pin: a of REG, NOT and OUT, a and b of AND, OR and XOR, and all three of MUX. The top bit of a pin, TRACKER_INVERTED,
 * says that the pin is inverted, and its other bits are the number of the net. An inverted pin reads the net's value inverted and its mark as it is:
 * byte 0 as 1, 1 as 0, 2 as 3 and 3 as 2. A REG reads its pin at the clock, so that its start is taken as it stands. An operand that is no pin must not
 * have the bit.
 *
 * A state is the bytes of the R registers, in net order, and then their count: the number of marked ones, those with byte 2 or 3, as a u16, low byte
 * first. A power-up sets the count, and every step and run keeps it, so that nobody has to look through the registers: tracker_marked_registers reads
 * it. Who writes register bytes into a state writes its count too. tracker_state_length gives the length of a state, R + 2.
 *
 * A static power-up and a static run are on codes, and their state is the R codes alone. A code is a byte 0 to 3, as above, or TRACKER_UNKNOWN_TRUSTED,
 * 4, for a trusted bit whose value is not known, or TRACKER_UNKNOWN_UNTRUSTED, 6, for an untrusted one. At each gate every pin that reads 4 is filled
 * with 0 and with 1, and every pin that reads 6 with 2 and with 3, independently of the other pins, also of those on the same net. The gate's value is
 * known if all fillings agree in it, and it is marked if any of them is. So an inverted pin and a NOT leave 4 and 6 as they are. A protected OUT with
 * code 2, 3 or 6 is a flow; 4 is not marked.
 *
 * A record is the k x O output bytes of a run, cycle after cycle and each cycle in output order. tracker_page writes it as pages of text.
 *
 * Every call takes byte buffers as a pointer and a length, and each length must be exactly the one that the call asks for: a longer buffer is refused
 * too. A call reads `image`, `row`, `rows` and `record`, and may write `state`, `nets`, `outputs`, `buffer` and `page`. It keeps no pointer, takes no
 * memory but the stack, and does not depend on earlier calls. A buffer that a call writes must not overlap another buffer of the same call. No pointer
 * may be null, even where the length is 0: lend the address of any byte then.
 *
 * Every answer is one number:
 *   - of a call that turned back: the refusal's number x 2^32 + its place. No lent byte has changed, but that 17 sets `buffer` to 0;
 *   - otherwise a number below 2^32: of a check, a power-up, a doubling or pages 0; of a step its verdict, 65,535 for clear or the net of the flow; of
 *     a run the cycle x 65,536 + the verdict; of tracker_doubled_size and tracker_doubled_kind a number of nets, at most 8,192. The answers of a static
 *     power-up and a static run are those of a power-up and a run.
 * No verdict is 0, since net 0 is never an OUT. So an answer variable that is still 0, or the answer of tracker_check, does not read as clear; nor
 * does a number of nets.
 */
#ifndef TRACKER_H
#define TRACKER_H

#include <stddef.h>
#include <stdint.h>

#ifdef __cplusplus
extern "C" {
#endif

/* The most nets of a netlist, and the most cycles of a run. */
enum { TRACKER_MOST_NETS = 8192, TRACKER_MOST_CYCLES = 4096 };

/* The top bit of a pin, which inverts it: TRACKER_INVERTED + 3 is an inverted pin on net 3. */
enum { TRACKER_INVERTED = 32768 };

/* The codes of bits whose value is not known, in the state, the rows and the outputs of a static run. */
enum { TRACKER_UNKNOWN_TRUSTED = 4, TRACKER_UNKNOWN_UNTRUSTED = 6 };

/* The number of a clear verdict, which is no net's number. */
enum { TRACKER_CLEAR = 65535 };

/* The numbers of refusals: 1 to 17 as in document 01's table, and 18 to 20 of document 02. */
enum {
    TRACKER_IMAGE_TOO_SHORT = 1,   /* under 8 bytes */
    TRACKER_NETS_OUT_OF_RANGE = 2, /* N is 0 or above 8,192 */
    TRACKER_IMAGE_LENGTH = 3,      /* not 8 + 7 x N */
    TRACKER_KIND = 4,              /* above 8; the place is the net */
    TRACKER_PIN = 5,               /* names no net below its own, or a REG's none below N; the place is the net */
    TRACKER_VALUE = 6,             /* a CONST above 1, a start above 2, a policy above 1; the place is the net */
    TRACKER_UNLISTED_OPERAND = 7,  /* not 0; the place is the net */
    TRACKER_COUNTS = 8,            /* I, R or O is wrong */
    TRACKER_TOO_MANY_CYCLES = 9,   /* k above 4,096 */
    TRACKER_STATE_LENGTH = 10,     /* not R + 2, or R for a static call */
    TRACKER_STATE_BYTE = 11,       /* a register's byte is above 3; the place is its index */
    TRACKER_ROW_LENGTH = 12,       /* not I, or k x I for a run */
    TRACKER_ROW_BYTE = 13,         /* a row's byte, or a record's, is above 3; the place is its index */
    TRACKER_BUFFER_LENGTH = 14,    /* not N, or k x O for a run; or a record's length is not k x O */
    TRACKER_DOUBLED_TOO_LARGE = 15, /* the doubled netlist has more than 8,192 nets */
    TRACKER_DOUBLED_LENGTH = 16,   /* the buffer is not as long as the doubled image */
    TRACKER_DOUBLED_REFUSED = 17,  /* the doubled image draws 1 to 8; never given */
    TRACKER_STATIC_BYTE = 18,      /* a state or row byte of a static run is 5 or above 6; the place is its index */
    TRACKER_PAGE_LENGTH = 19,      /* the page buffer is not exactly as long as the pages */
    TRACKER_STATE_COUNT = 20       /* the state's last two bytes are not the number of marked registers */
};

/* Whether an image is a netlist. Answers 0, or one of the refusals 1 to 8. */
uint64_t tracker_check(const uint8_t *image, size_t image_length);

/* Sets each of the R registers to its start, trusted, or, where none is given, to byte 2, an untrusted 0, so that a clear verdict holds whatever such a
 * register held; and the count, which is the number of registers without a start. What the R + 2 state bytes were is not looked at. Answers 0, or one of
 * the refusals 1 to 8 and 10. */
uint64_t tracker_power_up(const uint8_t *image, size_t image_length,
                          uint8_t *state, size_t state_length);

/* One clock cycle on a row of I bytes: fills N net bytes and rewrites the R + 2 state bytes, of which the last two count the registers as they are after
 * the clock. Answers with the verdict, or one of the refusals 1 to 8, 10 to 14 and 20. 20 is tried directly after 11, before 12. */
uint64_t tracker_step(const uint8_t *image, size_t image_length,
                      uint8_t *state, size_t state_length,
                      const uint8_t *row, size_t row_length,
                      uint8_t *nets, size_t nets_length);

/* k clock cycles, at most 4,096, on k x I row bytes: fills k x O output bytes and leaves the last state, with the count of its own registers. Answers
 * with the first flow and its cycle, or, with a clear verdict, cycle k; or with one of the refusals 1 to 14 and 20. 20 is tried directly after 11, before
 * 12, also where k is 0, which changes no byte. */
uint64_t tracker_run(const uint8_t *image, size_t image_length,
                     size_t k,
                     uint8_t *state, size_t state_length,
                     const uint8_t *rows, size_t rows_length,
                     uint8_t *outputs, size_t outputs_length);

/* Sets each of the R registers to the code of its start: 0 or 1, or, where none is given, TRACKER_UNKNOWN_UNTRUSTED. The state has R bytes and no count.
 * Answers 0, or one of the refusals 1 to 8 and 10. */
uint64_t tracker_static_power_up(const uint8_t *image, size_t image_length,
                                 uint8_t *state, size_t state_length);

/* k clock cycles, at most 4,096, on codes: takes R state codes and k x I row codes, fills k x O output codes and leaves the last state, in codes too.
 * Answers with the first flow and its cycle, or, with a clear verdict, cycle k.
 *
 * A run fills the unknowns of a static run if it takes as many cycles, with 0 or 1 in its state and rows where the static run has 4, with 2 or 3 where
 * that has 6, chosen for each register and anew for each input in each cycle, and with the same byte everywhere else. If the static verdict is clear,
 * every such run is clear. Whatever the verdict, where an output or the state left has a code below 4, its value is the one that each such run has there,
 * and where a code is not marked, no such run has a mark there. So a static run from tracker_static_power_up speaks of all values that registers without
 * a start may wake with, and on rows of 4 and 6 of all rows with these marks. A flow may be one that no such run has, since each gate is filled by
 * itself. Where the state and the rows have bytes 0 to 3 alone, answer and bytes are those of tracker_run, but for the count, which a static state does
 * not have.
 *
 * Or answers with one of the refusals 1 to 10, 12, 14 and 18. They are tried in this order: 1 to 10, 18 for the state, 12, 18 for the rows, and 14. So
 * 18 is for the state if the state has such a byte, and otherwise for the rows. The state left is one for a further static run: tracker_step and
 * tracker_run take R + 2 bytes, and neither 4 nor 6 among the first R. */
uint64_t tracker_static_run(const uint8_t *image, size_t image_length,
                            size_t k,
                            uint8_t *state, size_t state_length,
                            const uint8_t *rows, size_t rows_length,
                            uint8_t *outputs, size_t outputs_length);

/* How big the doubled netlist gets. Writes nothing. Answers with the number of its nets, 2 to 8,192, or one of the refusals 1 to 8 and 15, with which
 * tracker_double would turn back too. */
uint64_t tracker_doubled_size(const uint8_t *image, size_t image_length);

/* How many nets of one kind, 0 to 8, the doubled netlist has. Writes nothing. Answers with that number, which is 0 for every kind above 8, or with the
 * refusal of tracker_doubled_size, whatever the kind. The numbers of kinds 0 to 8 add up to the number of its nets. */
uint64_t tracker_doubled_kind(const uint8_t *image, size_t image_length,
                              size_t kind);

/* Writes the doubled netlist, 8 + 7 x (its number of nets) bytes: tracker_image_length gives them for the answer of tracker_doubled_size. Register j
 * becomes two: 2j for its value, with the same start, and 2j + 1 for its mark, with start 1 where none is given and 0 otherwise. The values at outputs 2j
 * and 2j + 1, byte % 2, are the value and the mark of the source's output j. Marks within the doubled netlist say nothing of the source: register 2j
 * without a start wakes untrusted there. Nor does the count in the doubled netlist's state of 2 x R + 2 bytes: it is of those marks. Of the pins that
 * stand for a pin of the source, those on a value net are inverted where that pin is, and those on a mark net never are. Answers 0, or one of the
 * refusals 1 to 8 and 15 to 17. */
uint64_t tracker_double(const uint8_t *image, size_t image_length,
                        uint8_t *buffer, size_t buffer_length);

/* Writes the pages of a record, the k x O output bytes of a run of k cycles, k at most 4,096. A page shows 64 cycles, and the last one those that are
 * left. It is a heading line and a line per output, in output order, each 70 characters and a newline. Columns 1 to 5 hold the word cycle in the heading,
 * and in the other lines the OUT's own net number, set right; column 6 is blank. The other 64 columns hold in the heading the number of the page's first
 * cycle, set left, and in the other lines one sign per cycle: 0 and 1, or l and h for an untrusted 0 and 1. Unused columns are blank. k = 0 gives no
 * page, and O = 0 gives headings alone. All of it is ASCII, and no 0 byte stands at the end. tracker_page_length gives the bytes of all pages.
 *
 * Answers 0, or one of the refusals 1 to 9, 13, 14 and 19. They are tried in this order: 1 to 9; 13 for the record's first byte above 3, whatever the
 * record's length; 14 for that length; and 19 for the length of the page. The place of 13 is the index of that byte, or 2^32 - 1 where the index is
 * larger, since an answer has 32 bits for a place. A record of a static run is refused where it has a 4 or a 6. */
uint64_t tracker_page(const uint8_t *image, size_t image_length,
                      size_t k,
                      const uint8_t *record, size_t record_length,
                      uint8_t *page, size_t page_length);

/* The number of the refusal in an answer, or 0 where the call did not turn back; and the refusal's place. */
static inline uint32_t tracker_refusal(uint64_t answer) { return (uint32_t)(answer >> 32); }
static inline uint32_t tracker_place(uint64_t answer) { return (uint32_t)answer; }

/* The net of the flow in the answer of a step, a run or a static run; -1 where the verdict is clear, and -2 where the call turned back and there is no
 * verdict. Of 0, which none of them answers, it makes a flow at net 0, which is never an OUT. */
static inline int32_t tracker_flow(uint64_t answer)
{
    int32_t verdict = (int32_t)(answer & 0xffff);
    if (tracker_refusal(answer) != 0)
        return -2;
    return verdict == TRACKER_CLEAR ? -1 : verdict;
}

/* Whether a step, a run or a static run answered with a clear verdict: 0 for a flow, for a refusal, and for 0. */
static inline int tracker_is_clear(uint64_t answer) { return tracker_flow(answer) == -1; }

/* The cycle in the answer of a run or a static run that did not turn back. */
static inline uint32_t tracker_cycle(uint64_t answer) { return (uint32_t)answer >> 16; }

/* Whether a code has a known value, which is code % 2 then, and whether it is marked. */
static inline int tracker_is_known(uint8_t code) { return code < 4; }
static inline int tracker_is_marked(uint8_t code) { return code / 2 % 2 == 1; }

/* The bytes of an image of so many nets, 8 + 7 x nets. For an answer of tracker_doubled_size they are those of the doubled image, and 0 where that call
 * turned back. */
static inline size_t tracker_image_length(uint64_t nets)
{
    return tracker_refusal(nets) != 0 ? 0 : (size_t)(8 + 7 * nets);
}

/* The bytes of a state of so many registers, for a power-up, a step or a run. For static calls they are as many as there are registers. */
static inline size_t tracker_state_length(size_t registers) { return registers + 2; }

/* How many registers are marked, as the last two bytes of a state say. It has to have these two. */
static inline uint32_t tracker_marked_registers(const uint8_t *state, size_t state_length)
{
    return state[state_length - 2] + 256u * state[state_length - 1];
}

/* The bytes of all pages of k cycles, at most 4,096, and so many outputs: a page for each 64 cycles and for those that are left, and on each page a
 * heading and a line per output, of 71 bytes each. */
static inline size_t tracker_page_length(size_t k, size_t outputs)
{
    return (k + 63) / 64 * (1 + outputs) * 71;
}

#ifdef __cplusplus
}
#endif

#endif
