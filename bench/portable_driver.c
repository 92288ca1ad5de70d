// Calls kernels in portable C for bench/portable, which writes `kernels.c`. Each case of the input has the number of a kernel, eight arguments,
// the number of pages, and for each page its address, whether it may be written, and its bytes; for each case the output has 1 where a
// read or a write faulted, the result, and the bytes of the pages after the call.
//
// usage: driver < CASES > OUTCOMES
#include "kernels.c" // the kernels, and CALLS: a row of functions that take an array of eight arguments

#include <setjmp.h>
#include <signal.h>
#include <stdio.h>
#include <stdlib.h>
#include <sys/mman.h>

enum { PAGE = 4096, MOST = 64 };

static sigjmp_buf before;

static void faulted(int number) {
    (void)number;
    siglongjmp(before, 1);
}

static void take(void *to, size_t size) {
    if (fread(to, 1, size, stdin) != size) exit(2);
}

int main(void) {
    struct sigaction action = {.sa_handler = faulted, .sa_flags = SA_NODEFER};
    sigaction(SIGSEGV, &action, NULL);
    sigaction(SIGBUS, &action, NULL);
    for (uint64_t head[10]; fread(head, 8, 10, stdin) == 10;) {
        uint64_t pages[MOST], page[2];
        if (head[0] >= sizeof CALLS / sizeof *CALLS || head[9] > MOST) return 2;
        for (uint64_t i = 0; i < head[9]; i++) {
            take(page, sizeof page);
            void *at = (void *)(uintptr_t)page[0];
            if (mmap(at, PAGE, PROT_READ | PROT_WRITE, MAP_PRIVATE | MAP_ANONYMOUS | MAP_FIXED, -1, 0) != at) return 3;
            take(at, PAGE);
            if (!page[1] && mprotect(at, PAGE, PROT_READ) != 0) return 3;
            pages[i] = page[0];
        }
        volatile uint64_t outcome[2] = {1, 0};
        if (sigsetjmp(before, 1) == 0) {
            outcome[1] = CALLS[head[0]](head + 1);
            outcome[0] = 0;
        }
        uint64_t told[2] = {outcome[0], outcome[1]};
        fwrite(told, 8, 2, stdout);
        for (uint64_t i = 0; i < head[9]; i++) {
            fwrite((void *)(uintptr_t)pages[i], 1, PAGE, stdout);
            munmap((void *)(uintptr_t)pages[i], PAGE);
        }
    }
    return 0;
}
