/* libfuzzer.c: what libFuzzer calls for each input. */
#include <unistd.h>

#include "sequence.h"
#include "tally.h"

int LLVMFuzzerTestOneInput(const uint8_t *data, size_t size);

/* Ends the program where there were enough calls. libFuzzer takes an ordinary exit for a fault. */
int LLVMFuzzerTestOneInput(const uint8_t *data, size_t size) {
    run_sequence(data, size);
    if (enough()) {
        print_tally();
        _exit(0);
    }
    return 0;
}
