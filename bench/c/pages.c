// The peer in C that writes pages: the OUTs are listed once, and then a straightforward
// loop goes over the pages, the OUTs and the cycles of a page. It includes nothing, so
// that a clang without headers takes it too.

typedef __SIZE_TYPE__ size_t;
typedef __UINT8_TYPE__ uint8_t;
typedef __UINT16_TYPE__ uint16_t;

enum { HEAD = 8, MOST_NETS = 8192, OUT = 8 };

// The cycles that a page shows, and the columns before them in a line.
enum { CYCLES = 64, BEFORE = 6 };

// The u16 at a place. The machine has the low byte first, as the image has.
static size_t u16_at(const uint8_t *place) {
    uint16_t number;
    __builtin_memcpy(&number, place, 2);
    return number;
}

// So many blanks. The answer is the place behind them, as it is below.
static uint8_t *put_blanks(uint8_t *text, size_t count) {
    for (size_t i = 0; i < count; i++) text[i] = ' ';
    return text + count;
}

// How many digits a number has.
static size_t digit_count(size_t number) {
    size_t count = 1;
    while (number >= 10) number /= 10, count++;
    return count;
}

// The digits of a number.
static uint8_t *put_number(uint8_t *text, size_t number) {
    size_t count = digit_count(number);
    for (size_t i = count; i > 0; i--, number /= 10) text[i - 1] = (uint8_t)('0' + number % 10);
    return text + count;
}

// The heading line of a page.
static uint8_t *put_heading(uint8_t *text, size_t first) {
    __builtin_memcpy(text, "cycle ", BEFORE);
    text = put_number(text + BEFORE, first);
    text = put_blanks(text, CYCLES - digit_count(first));
    *text = '\n';
    return text + 1;
}

// The line of an OUT, whose n bytes stand `outputs` apart.
static uint8_t *put_line(uint8_t *restrict text, size_t net, const uint8_t *restrict bytes, size_t n, size_t outputs) {
    text = put_blanks(text, BEFORE - 1 - digit_count(net));
    text = put_number(text, net);
    *text++ = ' ';
    for (size_t cycle = 0; cycle < n; cycle++) text[cycle] = "01lh"[bytes[cycle * outputs]];
    text = put_blanks(text + n, CYCLES - n);
    *text = '\n';
    return text + 1;
}

// The numbers of all OUTs, in net order.
static void list_outs(const uint8_t *kinds, size_t nets, uint16_t *list) {
    size_t found = 0;
    for (size_t net = 0; net < nets; net++)
        if (kinds[net] == OUT) list[found++] = (uint16_t)net;
}

// The pages of k cycles of an accepted call.
void write_pages(const uint8_t *restrict image, size_t k, const uint8_t *restrict record, uint8_t *restrict page) {
    size_t nets = u16_at(image), outputs = u16_at(image + 6);
    uint16_t outs[MOST_NETS];
    list_outs(image + HEAD, nets, outs);
    for (size_t first = 0; first < k; first += CYCLES) {
        size_t n = k - first < CYCLES ? k - first : CYCLES;
        const uint8_t *bytes = record + first * outputs;
        page = put_heading(page, first);
        for (size_t j = 0; j < outputs; j++) page = put_line(page, outs[j], bytes + j, n, outputs);
    }
}
