// Calls kernels in C for bench/loops, which writes `kernels.h`. Each case of the input has the number of a kernel, the bytes of memory, eight
// arguments, and what the memory holds, which stands at MEMORY; for each the output has the result and the memory after the call.
//
// usage: driver < CASES > OUTCOMES
#include <stdint.h>
#include <sys/mman.h>
#include <unistd.h>

typedef int8_t i8;
typedef int16_t i16;
typedef int32_t i32;
typedef int64_t i64;
typedef uint8_t u8;
typedef uint16_t u16;
typedef uint32_t u32;
typedef uint64_t u64;
#include "kernels.h" // EACH_KERNEL, and the prototypes

#define CALL(name, ...) static u64 call_##name(const u64 *given) { __VA_ARGS__ }
EACH_KERNEL(CALL)
#undef CALL
#define ROW(name, ...) call_##name,
static u64 (*const calls[])(const u64 *) = {EACH_KERNEL(ROW)};

enum { MOST = 1 << 20 };
static u8 *const MEMORY = (u8 *)0x10000000;

static int all_read(void *to, size_t size) {
    for (size_t at = 0; at < size;) {
        ssize_t got = read(0, (u8 *)to + at, size - at);
        if (got <= 0) return 0;
        at += got;
    }
    return 1;
}

static int all_written(const void *from, size_t size) {
    for (size_t at = 0; at < size;) {
        ssize_t put = write(1, (const u8 *)from + at, size - at);
        if (put <= 0) return 0;
        at += put;
    }
    return 1;
}

int main(void) {
    u64 head[10];
    if (mmap(MEMORY, MOST, PROT_READ | PROT_WRITE, MAP_PRIVATE | MAP_ANONYMOUS | MAP_FIXED, -1, 0) != MEMORY) return 2;
    while (all_read(head, sizeof head)) {
        if (head[0] >= sizeof calls / sizeof *calls || head[1] > MOST || !all_read(MEMORY, head[1])) return 2;
        u64 result = calls[head[0]](head + 2);
        if (!all_written(&result, sizeof result) || !all_written(MEMORY, head[1])) return 2;
    }
    return 0;
}
