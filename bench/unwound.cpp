// Lets a function of tools/library fault, for bench/from_c, and looks whether the way from the fault back to its caller is found, as gdb and
// C++ find it: status 0.
#include <csignal>
#include <cstdint>
#include <cstdlib>
#include <sys/mman.h>
#include <unwind.h>

#include "kernels.h"

static uintptr_t starts[32];
static int count;
static int32_t *page;

__attribute__((noinline)) static void caller() {
    axpy(page, reinterpret_cast<int32_t *>(0x1000), 3, 1000);
    __asm__ volatile("" ::: "memory");
}

static _Unwind_Reason_Code note(_Unwind_Context *context, void *) {
    if (count < 32) starts[count++] = _Unwind_GetRegionStart(context);
    return _URC_NO_REASON;
}

static void faulted(int) {
    _Unwind_Backtrace(note, nullptr);
    int lost = 1;
    for (int i = 0; i < count; i++) lost &= starts[i] != reinterpret_cast<uintptr_t>(&caller);
    _Exit(lost);
}

int main() {
    page = static_cast<int32_t *>(mmap(nullptr, 4096, PROT_READ | PROT_WRITE, MAP_PRIVATE | MAP_ANONYMOUS, -1, 0));
    signal(SIGSEGV, faulted);
    caller();
    return 2;
}
