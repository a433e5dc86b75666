/* An example: the counter of the specification, through every call of tracker.h.
 *
 * Its nets are 0 INPUT; 1 REG of net 4, start 0; 2 NOT 1; 3 NOT 0; 4 AND(2, 3); 5 OUT 1, protected.
 */
#include "tracker.h"

#include <inttypes.h>
#include <stdio.h>
#include <string.h>

/* The sizes N, I, R and O, then a kind for each net, then operands a, b and c for each net. A u16 has its low byte first. */
static const uint8_t counter[50] = {
    6, 0, 1, 0, 1, 0, 1, 0,
    1, 2, 3, 3, 4, 8,
    0, 0, 0, 0, 0, 0,
    4, 0, 0, 0, 0, 0,
    1, 0, 0, 0, 0, 0,
    0, 0, 0, 0, 0, 0,
    2, 0, 3, 0, 0, 0,
    1, 0, 1, 0, 0, 0,
};

/* Where operand a of net 5 and operand b of nets 1 and 5 stand: behind 8 bytes of sizes, 6 kinds, and the 6 operand bytes of each net before, operand a
 * comes first. */
enum { PIN_OF_NET_5 = 8 + 6 + 6 * 5, START_OF_NET_1 = 8 + 6 + 6 * 1 + 2, POLICY_OF_NET_5 = 8 + 6 + 6 * 5 + 2 };

static void print_bytes(const char *name, const uint8_t *bytes, size_t length)
{
    printf("; %s", name);
    for (size_t i = 0; i < length; i++)
        printf(" %u", (unsigned)bytes[i]);
}

/* A state, and how many of its registers are marked. */
static void print_state(const uint8_t *state, size_t length)
{
    print_bytes("state", state, length);
    printf(", %" PRIu32 " marked", tracker_marked_registers(state, length));
}

/* Prints a refusal and answers 1, or answers 0 where the call did not turn back. */
static int print_refusal(uint64_t answer)
{
    if (tracker_refusal(answer) == 0)
        return 0;
    printf("refused %" PRIu32 " at place %" PRIu32, tracker_refusal(answer), tracker_place(answer));
    return 1;
}

static void print_done(uint64_t answer)
{
    if (!print_refusal(answer))
        printf("done");
}

static void print_verdict(uint64_t answer)
{
    if (print_refusal(answer))
        return;
    if (tracker_is_clear(answer))
        printf("clear");
    else
        printf("flow at net %" PRId32, tracker_flow(answer));
}

static void print_first_flow(uint64_t answer)
{
    if (print_refusal(answer))
        return;
    print_verdict(answer);
    printf("%s %" PRIu32, tracker_flow(answer) < 0 ? ", cycle" : " in cycle", tracker_cycle(answer));
}

/* The bytes of the counter's state: one register, and the count of marked ones. A static state is the register alone. */
enum { STATE_OF_COUNTER = 1 + 2, STATIC_STATE_OF_COUNTER = 1 };

static void power_up_and_step(void)
{
    uint8_t state[STATE_OF_COUNTER] = { 0 };
    uint8_t nets[6] = { 0 };
    const uint8_t row[1] = { 2 };

    printf("power-up: ");
    print_done(tracker_power_up(counter, sizeof counter, state, sizeof state));
    print_state(state, sizeof state);

    printf("\nstep on 2: ");
    print_verdict(tracker_step(counter, sizeof counter, state, sizeof state, row, sizeof row, nets, sizeof nets));
    print_bytes("nets", nets, sizeof nets);
    print_state(state, sizeof state);
    printf("\n");
}

/* The register alone is no state, nor is a marked register with a count of 0. */
static void wrong_states(void)
{
    uint8_t state[STATE_OF_COUNTER] = { 3, 0, 0 };
    uint8_t nets[6] = { 0 };
    const uint8_t row[1] = { 0 };

    printf("power-up of 1 byte for %zu: ", tracker_state_length(1));
    print_done(tracker_power_up(counter, sizeof counter, state, 1));
    printf("\nstep from 3 0 0: ");
    print_verdict(tracker_step(counter, sizeof counter, state, sizeof state, row, sizeof row, nets, sizeof nets));
    printf("\n");
}

/* A call that turned back has no verdict, so it is not clear; nor is 0, the answer of a check. */
static void answers_that_are_not_clear(void)
{
    uint8_t state[STATE_OF_COUNTER] = { 0 };
    uint8_t nets[6] = { 0 };
    const uint8_t row[1] = { 4 };
    uint64_t answer = tracker_step(counter, sizeof counter, state, sizeof state, row, sizeof row, nets, sizeof nets);

    printf("step on 4: ");
    print_verdict(answer);
    printf("; %s\n", tracker_is_clear(answer) ? "clear" : "not clear");

    answer = tracker_check(counter, sizeof counter);
    printf("check, read as a step: %s\n", tracker_is_clear(answer) ? "clear" : "not clear");
}

static void power_up_and_run(const uint8_t image[sizeof counter], uint8_t outputs[4])
{
    uint8_t state[STATE_OF_COUNTER] = { 0 };
    const uint8_t rows[4] = { 2, 0, 1, 0 };

    printf("power-up: ");
    print_done(tracker_power_up(image, sizeof counter, state, sizeof state));
    print_state(state, sizeof state);

    printf("\nrun on 2 0 1 0: ");
    print_first_flow(tracker_run(image, sizeof counter, 4, state, sizeof state, rows, sizeof rows, outputs, 4));
    print_bytes("outputs", outputs, 4);
    print_state(state, sizeof state);
    printf("\n");
}

/* Four cycles and one output take one page of two lines, each 70 characters and a newline. */
enum { PAGE_OF_COUNTER = 2 * 71 };

/* The run's record, 0 3 2 0, is a 0, an untrusted 1, an untrusted 0 and a 0: 0hl0. A page of one byte less is refused, as is a record with a 4. */
static void run_and_print_page(void)
{
    uint8_t record[4] = { 0 };
    uint8_t page[PAGE_OF_COUNTER] = { 0 };

    power_up_and_run(counter, record);
    printf("page of %zu bytes: ", tracker_page_length(4, 1));
    print_done(tracker_page(counter, sizeof counter, 4, record, sizeof record, page, sizeof page));
    printf("\n%.*s", (int)sizeof page, (const char *)page);

    printf("page of %zu bytes: ", sizeof page - 1);
    print_done(tracker_page(counter, sizeof counter, 4, record, sizeof record, page, sizeof page - 1));
    record[2] = TRACKER_UNKNOWN_TRUSTED;
    printf("\npage of 0 3 4 0: ");
    print_done(tracker_page(counter, sizeof counter, 4, record, sizeof record, page, sizeof page));
    printf("\n");
}

/* The counter with start 2, which is none given. */
static void take_start_away(uint8_t unknown[sizeof counter])
{
    memcpy(unknown, counter, sizeof counter);
    unknown[START_OF_NET_1] = 2;
}

/* Without a start the register wakes untrusted. */
static void run_without_start(void)
{
    uint8_t unknown[sizeof counter];
    uint8_t outputs[4] = { 0 };

    take_start_away(unknown);
    printf("without a start, ");
    power_up_and_run(unknown, outputs);
}

/* The OUT's pin on net 1 is inverted: the outputs have the other values, and the same marks. */
static void run_with_inverted_pin(void)
{
    const unsigned pin = TRACKER_INVERTED + 1;
    uint8_t inverted[sizeof counter];
    uint8_t outputs[4] = { 0 };

    memcpy(inverted, counter, sizeof counter);
    inverted[PIN_OF_NET_5] = (uint8_t)(pin % 256);
    inverted[PIN_OF_NET_5 + 1] = (uint8_t)(pin / 256);
    printf("with an inverted output, ");
    power_up_and_run(inverted, outputs);
}

/* Four cycles on codes from static power-up, each with the same code as its row. */
static void static_power_up_and_run(const uint8_t image[sizeof counter], uint8_t code)
{
    uint8_t state[STATIC_STATE_OF_COUNTER] = { 0 };
    uint8_t outputs[4] = { 0 };
    uint8_t rows[4];

    memset(rows, code, sizeof rows);
    printf("static power-up: ");
    print_done(tracker_static_power_up(image, sizeof counter, state, sizeof state));
    print_bytes("state", state, sizeof state);

    printf("\nstatic run on rows of %u: ", (unsigned)code);
    print_first_flow(tracker_static_run(image, sizeof counter, 4, state, sizeof state, rows, sizeof rows, outputs, sizeof outputs));
    print_bytes("outputs", outputs, sizeof outputs);
    print_bytes("state", state, sizeof state);
    printf("\n");
}

/* Verdicts on rows whose values are not given.
 *
 * With 4 in each row, unknown and trusted, net 3, the NOT of the input, is 4 in each cycle. In cycle 0 the register has its start 0, so that net 2 is 1.
 * The AND of 1 and 4 is 0 or 1, by what 4 is filled with, and unmarked either way, hence 4. The register takes it, so that from cycle 1 on nets 2 and 3
 * are 4, and the AND of 4 and 4 is 4. The OUT has 0 and then 4, and the run is clear: so is every run of four cycles on trusted rows.
 *
 * With 6, unknown and untrusted, net 3 is 6. The AND of 1 and 6 is 2 or 3, hence 6. The register has it in cycle 1, where the OUT, net 5, is the first
 * flow. The AND of 6 and 6 is 2 or 3, hence 6, in all cycles behind it.
 *
 * 5 is no code, and stands at index 0 first. */
static void run_on_unknown_rows(void)
{
    static_power_up_and_run(counter, TRACKER_UNKNOWN_TRUSTED);
    static_power_up_and_run(counter, TRACKER_UNKNOWN_UNTRUSTED);
    static_power_up_and_run(counter, 5);
}

/* Without a start the register wakes as 6, and the OUT shows it in cycle 0, which is a flow. On rows of 1, net 3 is 0. Net 2 is 6, and the AND of 6 and
 * 0 is 0, unmarked, whatever 6 is filled with. So the register has 0 from cycle 1 on, whatever it held. */
static void static_run_without_start(void)
{
    uint8_t unknown[sizeof counter];

    take_start_away(unknown);
    printf("without a start, ");
    static_power_up_and_run(unknown, 1);
}

/* Prints the nets of the doubled netlist, the bytes of its image, and its nets of each kind, CONST to OUT. Answers the bytes, or 0 after a refusal. */
static size_t print_doubled_size(const uint8_t *image, size_t image_length)
{
    uint64_t nets = tracker_doubled_size(image, image_length);
    size_t bytes = tracker_image_length(nets);

    if (print_refusal(nets))
        return 0;
    printf("%" PRIu64 " nets, %zu bytes; kinds", nets, bytes);
    for (size_t kind = 0; kind <= 8; kind++)
        printf(" %" PRIu64, tracker_doubled_kind(image, image_length, kind));
    return bytes;
}

/* The bytes of the largest image, which are room for every doubled one. */
enum { LARGEST_IMAGE = 8 + 7 * TRACKER_MOST_NETS };

/* Lends the whole room, which is refused, and then the bytes of the doubled image alone. Answers these bytes. */
static size_t double_counter(uint8_t doubled[LARGEST_IMAGE])
{
    size_t length;

    printf("doubled size: ");
    length = print_doubled_size(counter, sizeof counter);
    printf("\ndouble into %d bytes: ", LARGEST_IMAGE);
    print_done(tracker_double(counter, sizeof counter, doubled, LARGEST_IMAGE));

    printf("\ndouble into %zu bytes: ", length);
    print_done(tracker_double(counter, sizeof counter, doubled, length));
    printf("; sizes");
    for (size_t i = 0; i < 8; i += 2)
        printf(" %u", doubled[i] + 256u * doubled[i + 1]);
    printf("\n");
    return length;
}

/* The doubled counter has two registers. */
enum { STATE_OF_DOUBLED = 2 + 2 };

/* Each row byte of the counter, value + 2 x mark, becomes the two bytes value and mark. */
static void run_doubled(const uint8_t *doubled, size_t length)
{
    uint8_t state[STATE_OF_DOUBLED] = { 0 };
    uint8_t outputs[8] = { 0 };
    const uint8_t rows[8] = { 0, 1, 0, 0, 1, 0, 0, 0 };

    printf("power-up of the doubled: ");
    print_done(tracker_power_up(doubled, length, state, sizeof state));
    print_state(state, sizeof state);

    printf("\nrun of the doubled on 0 1 0 0 1 0 0 0: ");
    print_first_flow(tracker_run(doubled, length, 4, state, sizeof state, rows, sizeof rows, outputs, sizeof outputs));
    print_bytes("outputs", outputs, sizeof outputs);
    print_state(state, sizeof state);
    printf("\n");
}

/* A policy is 0 or 1. */
static void check_damaged(void)
{
    uint8_t damaged[sizeof counter];

    memcpy(damaged, counter, sizeof counter);
    damaged[POLICY_OF_NET_5] = 2;
    printf("check of the damaged: ");
    print_done(tracker_check(damaged, sizeof damaged));
    printf("\ndoubled size of the damaged: ");
    print_doubled_size(damaged, sizeof damaged);
    printf("\n");
}

int main(void)
{
    static uint8_t doubled[LARGEST_IMAGE];
    size_t length;

    printf("check: ");
    print_done(tracker_check(counter, sizeof counter));
    printf("\n");
    power_up_and_step();
    wrong_states();
    answers_that_are_not_clear();
    run_and_print_page();
    run_without_start();
    run_with_inverted_pin();
    run_on_unknown_rows();
    static_run_without_start();
    length = double_counter(doubled);
    run_doubled(doubled, length);
    check_damaged();
    return 0;
}
