/* The main loop of a firmware around the furnace's own reader, for an AVR part with a serial port.
 *
 * A pack comes in at the port as its length in two bytes, the high one first, and its bytes. The answer goes out as a line: `six` and six
 * times the volume, `refused` and the refusal's number, or `too long` for a pack that the port's memory does not hold. The sender waits for
 * it before the next pack.
 *
 * tests/avr/run builds it and runs it in simavr. */
#include "../include/furnace.h"
#include <avr/io.h>

#ifndef BAUD
#define BAUD 115200
#endif
#include <util/setbaud.h>

/* Where the pack lies. Where the port has a memory of its own, that is it; here it is all of the part's memory but 2 KB for the reader. */
#ifndef PORT_BYTES
#define PORT_BYTES (RAMEND + 1 - RAMSTART - 2048)
#endif
static uint8_t port[PORT_BYTES];

/* The reader's memory. Between two calls it is free for other uses. */
static uint8_t memory[1024];

static void open_port(void) {
    UBRR0 = UBRR_VALUE;
#if USE_2X
    UCSR0A = 1 << U2X0;
#endif
    UCSR0B = 1 << RXEN0 | 1 << TXEN0;
}

static uint8_t get(void) {
    while (!(UCSR0A & 1 << RXC0)) {
    }
    return UDR0;
}

static void put(char c) {
    while (!(UCSR0A & 1 << UDRE0)) {
    }
    UDR0 = (uint8_t)c;
}

static void put_text(const char *text) {
    while (*text)
        put(*text++);
}

static void put_number(int64_t z) {
    char digits[20];
    uint8_t n = 0;
    uint64_t rest = z < 0 ? -(uint64_t)z : (uint64_t)z;
    if (z < 0)
        put('-');
    do {
        digits[n++] = (char)('0' + rest % 10);
        rest /= 10;
    } while (rest != 0);
    while (n > 0)
        put(digits[--n]);
}

/* Reads a pack into the port's memory, and answers its length; what that does not hold is read and dropped. */
static uint16_t get_pack(void) {
    uint16_t bytes = (uint16_t)(get() << 8);
    bytes |= get();
    for (uint16_t i = 0; i < bytes; i++) {
        uint8_t b = get();
        if (i < sizeof port)
            port[i] = b;
    }
    return bytes;
}

static void answer(uint16_t bytes) {
    int64_t six = 0;
    if (bytes > sizeof port) {
        put_text("too long\n");
        return;
    }
    uint8_t refusal = furnace_read(port, bytes, memory, &six);
    put_text(refusal == 0 ? "six " : "refused ");
    put_number(refusal == 0 ? six : refusal);
    put('\n');
}

int main(void) {
    open_port();
    for (;;)
        answer(get_pack());
}
