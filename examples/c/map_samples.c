/* A store of a few tables is set up, a root made, pages mapped and found again. */
#include "sample_store.h"

int main(void) {
    const uint64_t frame = 0x80000000, group = (uint64_t)1 << 30;

    start(2);
    map("S14, 2 tables:", 4096, frame, 4096, 22);
    start(3);
    map("S14, 3 tables:", 4096, frame, 4096, 22);
    find("page 1:", 4100);
    find("page 2:", 8192);
    map("page 1 again:", 4096, frame, 1, 22);
    map("pages 0 and 1:", 4095, frame, 2, 22);
    map("no page:", 0, frame, 0, 22);
    map("no page, permissions 1024:", 0, frame, 0, 1024);
    map("the held window:", 0, 0x100000000, 1, 22);
    map("pa 2^56:", 0, (uint64_t)1 << 56, 1, 22);
    map("va 2^38:", (uint64_t)1 << 38, frame, 1, 22);
    map("up to 2^64:", UINT64_MAX, frame, 1, 22);
    start(5);
    map("S10, 5 tables:", group - 4096, frame, 8192, 31);
    find("page 262143:", group - 1);
    find("page 262144:", group);
    check();
    return 0;
}
