/* finding.c: prints a finding, with all that it takes to see it again. */
#include "finding.h"

#include <inttypes.h>
#include <signal.h>
#include <stdio.h>
#include <stdlib.h>

#include "store.h"

static const uint8_t *input;
static size_t input_size, calls, numbers_count;
static const char *name = "none";
static const uint64_t *numbers;
static uint64_t number, value;
static bool replied;

void begin_input(const uint8_t *data, size_t size) {
    input = data;
    input_size = size;
    calls = 0;
}

void begin_call(const char *call, const uint64_t *given, size_t count) {
    name = call;
    numbers = given;
    numbers_count = count;
    replied = false;
    calls++;
}

void end_call(uint64_t reply_number, uint64_t reply_value) {
    number = reply_number;
    value = reply_value;
    replied = true;
}

static void print_slices(void) {
    for (int i = 0; i < SLICES; i++)
        fprintf(stderr, "attack:   %s: %zu elements, %zu bytes %s a guard\n", slices[i].name, slices[i].count,
                slices[i].gap, slices[i].at_end ? "before" : "behind");
}

/* Writes the input to a file, which attack/run replays. */
static void write_input(void) {
    FILE *file = fopen("finding", "wb");
    if (file == NULL || fwrite(input, 1, input_size, file) != input_size || fclose(file) != 0)
        fputs("attack:   the file `finding` was not written\n", stderr);
}

_Noreturn void found(const char *what) {
    fprintf(stderr, "attack: FOUND: %s\nattack:   call %zu of the input, %s", what, calls, name);
    for (size_t i = 0; i < numbers_count; i++)
        fprintf(stderr, " 0x%" PRIx64, numbers[i]);
    if (replied)
        fprintf(stderr, ", which replied %" PRIu64 " 0x%" PRIx64, number, value);
    fputc('\n', stderr);
    print_slices();
    fprintf(stderr, "attack:   the input, which the file `finding` holds:");
    for (size_t i = 0; i < input_size; i++)
        fprintf(stderr, "%s%02x", i % 64 == 0 ? "\nattack:   " : "", input[i]);
    fputc('\n', stderr);
    write_input();
    abort();
}

/* Says which guard was touched, if one was. What is called here is not made for a signal, but the program ends with it.
 */
static void touched(int signal_number, siginfo_t *info, void *context) {
    static char what[100];
    (void)context;
    const char *where = "none";
    for (int i = 0; i < SLICES; i++)
        if (in_guard(&slices[i], info->si_addr))
            where = slices[i].name;
    snprintf(what, sizeof what, "signal %d, by a touch of memory beside these slices: %s", signal_number, where);
    found(what);
}

void watch_signals(void) {
    static const int watched[] = {SIGSEGV, SIGBUS, SIGILL, SIGTRAP, SIGFPE};
    struct sigaction action = {.sa_sigaction = touched, .sa_flags = SA_SIGINFO | SA_RESETHAND};
    for (size_t i = 0; i < sizeof watched / sizeof *watched; i++)
        sigaction(watched[i], &action, NULL);
}
