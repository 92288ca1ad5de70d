// Calls one kernel of examples/ from C, for bench/from_c: as the C function of tools/c_function, by examples/call.c from the compiled
// file (only where there is SVE), and in plain C (c_kernels.c), each over a copy of the same random memory, and counts the bytes that differ.
//
// usage: called ROW ELF CALLS SEED           (prints the bytes of a vector, the calls of compiled code and the wrong bytes)
#define main call_main
#include "../examples/call.c"
#undef main
#include <sys/auxv.h>

struct row {
    const char *name;
    uint64_t (*made)(const uint64_t *), (*plain)(const uint64_t *);
    int params, arrays, sizes[8];
    int room;  // elements past the count that are read or stored to
    int stop;  // the byte that ends the loop, or -1
    int index; // the array of indexes, of which each has to be below 256, or -1
};
#include "rows.h" // written by from_c: ROWS

static uint64_t misaligned = 1; // arrays begin at addresses that leave each number below this one by their elements' size

// Pieces of memory, after each of which a page is missing.
enum { PIECES = 4, SIZE = 8192, PAGE = 4096, STRIDE = SIZE + PAGE };
static const uint64_t KEPT[] = {~0ull, 0x7f7f7f7f7f7f7f7f, 0x0303030303030303, ~0ull}, ONES[] = {0, 0, 0, 0x0101010101010101};

static uint64_t state;

static uint64_t below(uint64_t end) {
    uint64_t z = state += 0x9e3779b97f4a7c15;
    z = (z ^ z >> 30) * 0xbf58476d1ce4e5b9;
    z = (z ^ z >> 27) * 0x94d049bb133111eb;
    z ^= z >> 31;
    return end == 0 ? z : z % end;
}

static uint8_t *new_memory(void) {
    uint8_t *at = mmap(NULL, PIECES * STRIDE, PROT_READ | PROT_WRITE, MAP_PRIVATE | MAP_ANONYMOUS, -1, 0);
    for (int i = 0; at != MAP_FAILED && i < PIECES; i++)
        if (mprotect(at + i * STRIDE + SIZE, PAGE, PROT_NONE) != 0) return NULL;
    return at == MAP_FAILED ? NULL : at;
}

static long unequal(const void *a, const void *b, size_t size) {
    long count = 0;
    for (size_t i = 0; i < size; i++) count += ((const uint8_t *)a)[i] != ((const uint8_t *)b)[i];
    return count;
}

static long unequal_memory(const uint8_t *a, const uint8_t *b) {
    long count = 0;
    for (int i = 0; i < PIECES * STRIDE; i += STRIDE)
        if (memcmp(a + i, b + i, SIZE) != 0) count += unequal(a + i, b + i, SIZE);
    return count;
}

// 0, 1, about one or two vectors of elements of some size, or some hundreds.
static uint64_t some_count(uint64_t vector) {
    uint64_t lanes = vector >> below(4);
    switch (below(5)) {
    case 0: return below(2);
    case 1: return lanes - 1 + below(3);
    case 2: return 2 * lanes - 1 + below(3);
    default: return below(500);
    }
}

// Fills the memory and makes the arguments, where an array's is its place in the memory. One time in four a loop that breaks is given no
// other end, in arrays that end where the memory does.
static void make(const struct row *row, uint64_t vector, uint8_t *memory, uint64_t given[8]) {
    int mode = below(4), is_apart = below(2), is_open = row->stop >= 0 && below(4) == 0;
    uint64_t count = some_count(vector), room = count + row->room + is_open;
    for (int i = 0; i < PIECES * STRIDE; i += STRIDE)
        for (int j = 0; j < SIZE; j += 8) *(uint64_t *)(memory + i + j) = (below(0) & KEPT[mode]) | ONES[mode];
    for (int i = 0; i < 8; i++) given[i] = is_open ? 0 : below(3) ? below(0) : below(3) - 1;
    for (int i = 0; i < row->arrays; i++) {
        uint64_t spare = is_open || below(3) == 0 ? 0 : below(below(2) ? 8 : 200);
        given[i] = (is_apart || is_open ? i * STRIDE : 0) + SIZE - (room + spare) * row->sizes[i] - (is_open ? 0 : below(misaligned));
        if (is_open) memory[given[i] + room - 1] = row->stop;
        for (uint64_t j = 0; i == row->index && j < room; j++) ((uint64_t *)(memory + given[i]))[j] %= 256;
    }
    if (row->arrays > 0) given[row->params - 1] = is_open ? ~0ull : count;
}

// The registers that a C function keeps, which no other code of this file uses (-ffixed).
enum { KEPT_REGISTERS = 18 };
#define EACH_PAIR(word) \
    word " x19, x20, [%0]\n" word " x21, x22, [%0, 16]\n" word " x23, x24, [%0, 32]\n" word " x25, x26, [%0, 48]\n" word " x27, x28, [%0, 64]\n" \
    word " d8, d9, [%0, 80]\n" word " d10, d11, [%0, 96]\n" word " d12, d13, [%0, 112]\n" word " d14, d15, [%0, 128]"

#ifndef GUARDED // bench/guarded.c has its own
int main(int words, char **word) {
    uint8_t *first = new_memory(), *copies[3] = {new_memory(), new_memory(), new_memory()};
    void *code = words == 5 ? load_kernel(word[2]) : NULL;
    if (code == NULL || first == NULL || copies[0] == NULL || copies[1] == NULL || copies[2] == NULL) return 2;
    const struct row *row = &ROWS[atoi(word[1])];
    long calls = atol(word[3]), wrong = 0;
    uint64_t vector, before[KEPT_REGISTERS], after[KEPT_REGISTERS];
    int has_sve = getauxval(AT_HWCAP) >> 22 & 1;
    vector = 16;
    if (has_sve) __asm__("rdvl %0, 1" : "=r"(vector));
    state = strtoull(word[4], NULL, 10);
    for (long call = 0; call < calls; call++) {
        uint64_t given[8], at[3][8], result[3];
        make(row, vector, first, given);
        for (int i = 0; i < 3; i++) {
            for (int j = 0; j < PIECES * STRIDE; j += STRIDE) memcpy(copies[i] + j, first + j, SIZE);
            for (int j = 0; j < 8; j++) at[i][j] = given[j] + (j < row->arrays ? (uintptr_t)copies[i] : 0);
        }
        result[0] = row->plain(at[0]);
        for (int i = 0; i < KEPT_REGISTERS; i++) before[i] = below(0);
        __asm__ volatile(EACH_PAIR("ldp") : : "r"(before) : "memory");
        result[1] = row->made(at[1]);
        __asm__ volatile(EACH_PAIR("stp") : : "r"(after) : "memory");
        result[2] = has_sve ? call_kernel(code, at[2]) : row->plain(at[2]);
        long now = unequal(before, after, sizeof before);
        for (int i = 1; i < 3; i++) now += unequal_memory(copies[0], copies[i]) + unequal(&result[0], &result[i], 8);
        if (now != 0 && wrong == 0) fprintf(stderr, "%s, call %ld: %ld wrong bytes, results %lx %lx %lx\n", row->name, call, now, result[0], result[1], result[2]);
        wrong += now;
    }
    printf("%lu %ld %ld\n", has_sve ? vector : 0, (1 + has_sve) * calls, wrong);
    fflush(stdout);
    _exit(0);
}
#endif
