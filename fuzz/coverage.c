/* Shows libFuzzer which parts of the compiled library an input reaches. The archive has no instrumentation of its own, and is run as it
   is shipped: where each straight run of its code begins stands a trap, which is taken away when it is first reached. So a run of code
   is seen once, by the first input that gets there, which is the one that the fuzzer keeps; afterwards the code runs at its full
   speed. The places are those that `blocks` lists, in the file that FUZZ_BLOCKS names; those that were never reached
   are written to the file that FUZZ_MISSED names. */
#define _GNU_SOURCE
#include "../include/segd.h"

#include <signal.h>
#include <stdio.h>
#include <stdlib.h>
#include <sys/mman.h>
#include <ucontext.h>

#define PAGE ((uintptr_t)4096)
#define MOST_BLOCKS 8192
#define TRAP 0xCC

static uint8_t reached[MOST_BLOCKS] __attribute__((section("__libfuzzer_extra_counters"), used));

static struct {
    uintptr_t place;
    uint8_t kept;
    uint8_t seen;
} blocks[MOST_BLOCKS];

static size_t count, seen;

/* The block that begins there, or `count`. */
static size_t block_at(uintptr_t place)
{
    size_t low = 0, high = count;
    while (low < high) {
        size_t middle = low + (high - low) / 2;
        if (blocks[middle].place < place)
            low = middle + 1;
        else
            high = middle;
    }
    return low < count && blocks[low].place == place ? low : count;
}

static void on_trap(int signal_number, siginfo_t *info, void *context)
{
    greg_t *rip = &((ucontext_t *)context)->uc_mcontext.gregs[REG_RIP];
    uintptr_t place = (uintptr_t)*rip - 1;
    size_t block = block_at(place);
    (void)info;
    if (block == count) { /* a trap of the program's own */
        signal(signal_number, SIG_DFL);
        return;
    }
    *(uint8_t *)place = blocks[block].kept;
    *rip = (greg_t)place;
    reached[block] = 1;
    seen += !blocks[block].seen;
    blocks[block].seen = 1;
}

static void give_up(const char *what)
{
    perror(what);
    exit(2);
}

static void read_places(const char *name)
{
    long offset;
    FILE *file = name == NULL ? NULL : fopen(name, "r");
    if (file == NULL)
        give_up("coverage: FUZZ_BLOCKS");
    while (count < MOST_BLOCKS && fscanf(file, "%ld %*s", &offset) == 1)
        blocks[count++].place = (uintptr_t)segd_open + (uintptr_t)offset;
    fclose(file);
}

static void set_traps(void)
{
    uintptr_t from = blocks[0].place & ~(PAGE - 1), to = blocks[count - 1].place + PAGE;
    if (mprotect((void *)from, to - from, PROT_READ | PROT_WRITE | PROT_EXEC) != 0)
        give_up("coverage: mprotect");
    for (size_t i = 0; i < count; i++) {
        blocks[i].kept = *(uint8_t *)blocks[i].place;
        *(uint8_t *)blocks[i].place = TRAP;
    }
}

/* How many blocks were reached, and which were not. */
static void report(void)
{
    const char *name = getenv("FUZZ_MISSED");
    FILE *file = name == NULL ? NULL : fopen(name, "w");
    fprintf(stderr, "blocks of the library reached: %zu of %zu\n", seen, count);
    for (size_t i = 0; file != NULL && i < count; i++)
        if (!blocks[i].seen)
            fprintf(file, "%ld\n", (long)(blocks[i].place - (uintptr_t)segd_open));
    if (file != NULL)
        fclose(file);
}

int LLVMFuzzerInitialize(int *argc, char ***argv);

int LLVMFuzzerInitialize(int *argc, char ***argv)
{
    struct sigaction action = {.sa_sigaction = on_trap, .sa_flags = SA_SIGINFO};
    (void)argc;
    (void)argv;
    read_places(getenv("FUZZ_BLOCKS"));
    if (count == 0 || sigaction(SIGTRAP, &action, NULL) != 0)
        give_up("coverage");
    set_traps();
    atexit(report);
    return 0;
}
