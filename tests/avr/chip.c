/* The simulated chip. A firmware runs in simavr; packs go in at its serial port and answers come out; each call of the reader is
 * watched from outside.
 *
 * chip PART FIRMWARE ENTRY END < PACKS
 *
 * ENTRY is the address of furnace_read, END the end of what is laid out in the data space: the stack's room begins there. A line of PACKS
 * is the answer expected, a tab and the pack in hexadecimal. Of each call: the answer is the one expected; every byte of that layout but
 * the reader's memory is afterwards as it was before, the number `six` too unless the answer is a volume; and the stack's room is painted
 * before, so that its deepest use shows. The first difference ends the run with status 1. At the end it prints, a line for each:
 * `packs` and `volumes`, how many there were; `refused N` and how often that refusal was met; `stack` and `call`, the bytes of the stack at
 * its deepest, in all and from the call on; `cycles`, those of all calls. */
#include <simavr/avr_uart.h>
#include <simavr/sim_avr.h>
#include <simavr/sim_elf.h>
#include <stdbool.h>
#include <stdio.h>
#include <stdlib.h>
#include <string.h>

enum { PAINT = 0xc5, MEMORY = 1024, DATA = 65536, MOST_CYCLES = 2000000000 };

static avr_t *chip;
static avr_irq_t *input;
static uint32_t entry, end;

/* What is still to be sent, and what has come back. */
static uint8_t sent[2 + DATA];
static size_t length, at;
static char line[64];
static size_t told;
static bool is_told;

/* The call that is being watched. */
static bool is_inside;
static uint32_t top, back, memory, six;
static avr_cycle_count_t began;
static uint8_t before[DATA];

static uint64_t packs, refused[256], cycles;
static uint32_t deepest, deepest_call;

static void fail(const char *what) {
    fprintf(stderr, "chip: pack %llu: %s\n", (unsigned long long)packs, what);
    exit(1);
}

/* The port takes bytes until it says that it is full, and asks again when it is not. */
static bool is_full;

static void when_full(struct avr_irq_t *irq, uint32_t value, void *p) {
    (void)irq, (void)value, (void)p;
    is_full = true;
}

static void when_ready(struct avr_irq_t *irq, uint32_t value, void *p) {
    (void)irq, (void)value, (void)p;
    is_full = false;
    while (!is_full && at < length)
        avr_raise_irq(input, sent[at++]);
}

static void when_told(struct avr_irq_t *irq, uint32_t value, void *p) {
    (void)irq, (void)p;
    if (value == '\n') {
        line[told] = 0;
        is_told = true;
    } else if (told + 1 < sizeof line) {
        line[told++] = (char)value;
    }
}

static void connect(void) {
    uint32_t flags = 0;
    avr_ioctl(chip, AVR_IOCTL_UART_SET_FLAGS('0'), &flags);
    input = avr_io_getirq(chip, AVR_IOCTL_UART_GETIRQ('0'), UART_IRQ_INPUT);
    avr_irq_register_notify(avr_io_getirq(chip, AVR_IOCTL_UART_GETIRQ('0'), UART_IRQ_OUTPUT), when_told, NULL);
    avr_irq_register_notify(avr_io_getirq(chip, AVR_IOCTL_UART_GETIRQ('0'), UART_IRQ_OUT_XON), when_ready, NULL);
    avr_irq_register_notify(avr_io_getirq(chip, AVR_IOCTL_UART_GETIRQ('0'), UART_IRQ_OUT_XOFF), when_full, NULL);
}

static uint32_t word(uint32_t i) {
    return chip->data[i] | (uint32_t)chip->data[i + 1] << 8;
}

static uint32_t stack_pointer(void) {
    return word(R_SPL);
}

/* The call begins: the address to return to is on the stack; by the calling convention that of the memory is in r14 and r15, that of the
 * number in r12 and r13. */
static void enter(void) {
    is_inside = true;
    top = stack_pointer();
    back = 2 * ((uint32_t)chip->data[top + 1] << 8 | chip->data[top + 2]);
    memory = word(14);
    six = word(12);
    memset(chip->data + end, PAINT, top + 1 - end);
    memcpy(before, chip->data, chip->ramend + 1u);
    began = chip->cycle;
}

/* From `from` to `to` nothing has changed but the reader's memory and, after acceptance, the number. */
static void expect_same(uint32_t from, uint32_t to, bool accepted, const char *what) {
    for (uint32_t i = from; i < to; i++) {
        bool lent = (i >= memory && i < memory + MEMORY) || (accepted && i >= six && i < six + 8);
        if (!lent && chip->data[i] != before[i])
            fail(what);
    }
}

static void note_depth(void) {
    uint32_t low = end;
    while (low <= top && chip->data[low] == PAINT)
        low++;
    if (low == end)
        fail("the stack has no room left");
    if (chip->ramend + 1u - low > deepest)
        deepest = chip->ramend + 1u - low;
    if (top + 3 - low > deepest_call)
        deepest_call = top + 3 - low;
}

/* The call has returned: its answer is in r24. r2 to r17, r28 and r29 are the caller's. */
static void leave(void) {
    uint8_t answer = chip->data[24];
    is_inside = false;
    cycles += chip->cycle - began;
    refused[answer]++;
    note_depth();
    expect_same(2, 18, false, "a register of the caller's has changed");
    expect_same(28, 30, false, "a register of the caller's has changed");
    expect_same(chip->ioend + 1u, end, answer == 0, "a byte outside the reader's memory has changed");
    expect_same(top + 3, chip->ramend + 1u, answer == 0, "a byte of the caller's stack has changed");
}

/* The answer to what is to be sent. */
static void run(void) {
    avr_cycle_count_t start = chip->cycle;
    at = told = 0;
    is_told = false;
    while (!is_told) {
        int state = avr_run(chip);
        if (state == cpu_Done || state == cpu_Crashed)
            fail("the chip has stopped");
        if (chip->pc == entry && !is_inside)
            enter();
        else if (is_inside && chip->pc == back && stack_pointer() == top + 2)
            leave();
        if (chip->cycle - start > MOST_CYCLES)
            fail("no answer");
    }
}

static int digit(char c) {
    return c >= 'a' && c <= 'f' ? c - 'a' + 10 : c - '0';
}

static void take_pack(const char *hex) {
    size_t n = strlen(hex) / 2;
    if (n >= DATA)
        fail("longer than a length in two bytes can say");
    length = n + 2;
    sent[0] = (uint8_t)(n >> 8);
    sent[1] = (uint8_t)n;
    for (size_t i = 0; i < n; i++)
        sent[i + 2] = (uint8_t)(digit(hex[2 * i]) << 4 | digit(hex[2 * i + 1]));
}

static void begin(char **words) {
    elf_firmware_t firmware;
    memset(&firmware, 0, sizeof firmware);
    if (elf_read_firmware(words[2], &firmware) != 0 || !(chip = avr_make_mcu_by_name(words[1])))
        fail("no such firmware or part");
    entry = (uint32_t)strtoul(words[3], NULL, 16);
    end = (uint32_t)strtoul(words[4], NULL, 16) & 0xffff;
    avr_init(chip);
    avr_load_firmware(chip, &firmware);
    chip->frequency = 16000000;
    connect();
}

static void print(void) {
    printf("packs %llu\nvolumes %llu\n", (unsigned long long)packs, (unsigned long long)refused[0]);
    for (int i = 1; i < 256; i++)
        if (refused[i])
            printf("refused %d %llu\n", i, (unsigned long long)refused[i]);
    printf("stack %u\ncall %u\ncycles %llu\n", deepest, deepest_call, (unsigned long long)cycles);
}

int main(int words, char **word) {
    static char text[2 * DATA + 64];
    if (words != 5)
        return 2;
    begin(word);
    while (fgets(text, sizeof text, stdin)) {
        char *hex = strchr(text, '\t');
        text[strcspn(text, "\n")] = 0;
        if (!hex)
            fail("a line without a tab");
        *hex++ = 0;
        packs++;
        take_pack(hex);
        run();
        if (strcmp(line, text) != 0) {
            fprintf(stderr, "chip: pack %llu: '%s' instead of '%s': %s\n", (unsigned long long)packs, line, text, hex);
            return 1;
        }
    }
    print();
    return 0;
}
