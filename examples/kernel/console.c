/* Text on the board's 16550 serial port, which works where its page is mapped to itself or translation is off. */
#include "console.h"

#include <stdarg.h>

#include "machine.h"

static volatile uint8_t *const uart = (volatile uint8_t *)UART;

static void put(char c) {
    while ((uart[5] & 0x20) == 0)
        continue;
    uart[0] = (uint8_t)c;
}

void wait_for_console(void) {
    while ((uart[5] & 0x40) == 0)
        continue;
}

static void put_text(const char *text) {
    while (*text != 0)
        put(*text++);
}

static void put_number(uint64_t number, uint64_t base) {
    char digits[21];
    char *at = digits + sizeof digits - 1;

    *at = 0;
    do {
        *--at = "0123456789abcdef"[number % base];
        number /= base;
    } while (number != 0);
    put_text(at);
}

void say(const char *format, ...) {
    va_list rest;

    va_start(rest, format);
    for (; *format != 0; format++) {
        if (*format != '%') {
            put(*format);
            continue;
        }
        format++;
        if (*format == 's') {
            put_text(va_arg(rest, const char *));
        } else if (*format == 'u') {
            put_number(va_arg(rest, uint64_t), 10);
        } else {
            put_text("0x");
            put_number(va_arg(rest, uint64_t), 16);
        }
    }
    va_end(rest);
}
