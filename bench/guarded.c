// Calls one function of `svec object` for bench/from_c --object, over random memory beside the same loop in C (c_kernels.c) over a copy, and
// counts the bytes that differ: of the memory, of the result, of the registers that a C function keeps, and of the stack but for the frame. The
// calls take turns at four kinds of stacks: one whose bytes around the frame are watched; one of which the frame has the last bytes, above a page
// that is missing; one on which signals come while the function runs, and whose handler writes all that is below its SP; and one in the page of
// an array, whose frame ends where the arrays begin.
//
// usage: guarded ROW CALLS SEED           (prints the bytes of a vector, the calls, the wrong bytes and the signals that came within the function)
#define GUARDED
#include "called.c"
#include <signal.h>
#include <sys/time.h>
#include <ucontext.h>

struct object {
    void *function;
    int frame, size, has_result; // bytes below SP that it writes, bytes of its words, and whether X0 is looked at
};
#include "objects.h" // written by from_c: OBJECTS

enum { MARKS = 20, WATCHED = 0, LAST = 1, INTERRUPTED = 2, SHARED = 3, WINDOW = 4096, STACK = 65536 };
uint64_t guarded_call(void *function, const uint64_t *args, const uint64_t *marks, uint64_t *found, void *sp);

static const struct object *object;
static volatile long signals;

static void on_signal(int number, siginfo_t *known, void *context) {
    uint64_t pc = ((ucontext_t *)context)->uc_mcontext.pc - (uint64_t)object->function;
    signals += pc < (uint64_t)object->size;
    (void)number, (void)known;
}

static uint8_t *new_stack(void) {
    uint8_t *at = mmap(NULL, PAGE + STACK, PROT_READ | PROT_WRITE, MAP_PRIVATE | MAP_ANONYMOUS, -1, 0);
    return at == MAP_FAILED || mprotect(at, PAGE, PROT_NONE) != 0 ? NULL : at + PAGE;
}

static uint8_t mark(const uint8_t *at) { return (uintptr_t)at * 37 + 11; }

// Lets a signal come after so many microseconds; none where it is 0.
static void signal_after(int time) {
    struct itimerval once = {{0, 0}, {0, time}};
    sigset_t set;
    sigemptyset(&set);
    sigaddset(&set, SIGALRM);
    if (time != 0) sigprocmask(SIG_UNBLOCK, &set, NULL);
    setitimer(ITIMER_REAL, &once, NULL);
    if (time == 0) sigprocmask(SIG_BLOCK, &set, NULL);
}

// The end of a frame in the page of the first array: the lowest byte of all arrays of that piece of memory; NULL where it has no room.
static uint8_t *below_arrays(const struct row *row, const uint64_t given[8], uint8_t *memory) {
    uint64_t lowest = row->arrays > 0 ? given[0] : 0;
    for (int i = 1; i < row->arrays; i++)
        if (given[i] < SIZE && given[i] < lowest) lowest = given[i];
    return lowest < (uint64_t)object->frame + 16 ? NULL : memory + (lowest & -16ull);
}

// One call on the stack that ends at sp: how many bytes of the registers, of the stack and of the result are wrong.
static long call(const uint64_t *at, uint64_t wanted, uint8_t *sp, const uint8_t *low, int kind) {
    uint64_t marks[MARKS], found[MARKS + 1], result;
    uint8_t *first = kind == WATCHED ? sp - WINDOW : sp - object->frame, *end = kind == SHARED ? first : sp + WINDOW / 4;
    if (first < low) return 1;
    for (int i = 0; i < MARKS; i++) marks[i] = below(0);
    for (uint8_t *byte = first; byte < end; byte++) *byte = mark(byte);
    if (kind == INTERRUPTED) signal_after(1 + below(40));
    result = guarded_call(object->function, at, marks, found, sp);
    if (kind == INTERRUPTED) signal_after(0);
    long wrong = unequal(marks, found, sizeof marks) + (found[MARKS] != (uintptr_t)sp);
    for (uint8_t *byte = first; byte < end; byte++)
        if (byte < sp - object->frame || byte >= sp) wrong += *byte != mark(byte);
    return wrong + (object->has_result ? unequal(&result, &wanted, sizeof result) : 0);
}

int main(int words, char **word) {
    uint8_t *first = new_memory(), *copies[2] = {new_memory(), new_memory()}, *stack = new_stack();
    if (words != 4 || first == NULL || copies[0] == NULL || copies[1] == NULL || stack == NULL) return 2;
    const struct row *row = &ROWS[atoi(word[1])];
    long calls = atol(word[2]), wrong = 0;
    uint64_t vector, given[8], at[2][8];
    struct sigaction action = {.sa_sigaction = on_signal, .sa_flags = SA_SIGINFO | SA_RESTART};
    object = &OBJECTS[atoi(word[1])];
    state = strtoull(word[3], NULL, 10);
    misaligned = 8;
    __asm__("rdvl %0, 1" : "=r"(vector));
    sigaction(SIGALRM, &action, NULL);
    signal_after(0);
    for (long number = 0; number < calls; number++) {
        make(row, vector, first, given);
        for (int i = 0; i < 2; i++) {
            for (int j = 0; j < PIECES * STRIDE; j += STRIDE) memcpy(copies[i] + j, first + j, SIZE);
            for (int j = 0; j < 8; j++) at[i][j] = given[j] + (j < row->arrays ? (uintptr_t)copies[i] : 0);
        }
        int kind = number % 4;
        uint8_t *shared = below_arrays(row, given, copies[1]), *sp = stack + (kind == LAST ? object->frame : STACK - WINDOW);
        if (kind == SHARED && shared == NULL) kind = WATCHED;
        if (kind == SHARED) sp = shared;
        long now = call(at[1], row->plain(at[0]), sp, kind == SHARED ? copies[1] : stack, kind);
        if (kind == SHARED) memcpy(sp - object->frame, copies[0] + (sp - object->frame - copies[1]), object->frame);
        now += unequal_memory(copies[0], copies[1]);
        if (now != 0 && wrong == 0) fprintf(stderr, "%s, call %ld, stack %d: %ld wrong bytes\n", row->name, number, kind, now);
        wrong += now;
    }
    printf("%lu %ld %ld %ld\n", vector, calls, wrong, signals);
    fflush(stdout);
    _exit(0);
}
