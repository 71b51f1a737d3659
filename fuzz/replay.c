/* replay FILE..: puts inputs to the harness, each in a process of its own, so that one that ends badly is counted and the others run.
   The last line is 'N passed, M failed'. Built with LEND_HEAP, for a checker of memory, it puts them all in one: a new process would
   be slow to start there. */
#include <stdint.h>
#include <stdio.h>
#include <stdlib.h>
#include <sys/wait.h>
#include <unistd.h>

int LLVMFuzzerTestOneInput(const uint8_t *data, size_t size);

static int put(const char *name)
{
    static uint8_t data[1u << 20];
    FILE *file = fopen(name, "rb");
    if (file == NULL)
        return 1;
    size_t size = fread(data, 1, sizeof data, file);
    fclose(file);
    return LLVMFuzzerTestOneInput(data, size);
}

#ifdef LEND_HEAP

static int passes(const char *name)
{
    return put(name) == 0;
}

#else

static int passes(const char *name)
{
    int status = 1;
    pid_t child = fork();
    if (child == 0)
        exit(put(name));
    return child > 0 && waitpid(child, &status, 0) == child && status == 0;
}

#endif

int main(int count, char **names)
{
    int passed = 0, failed = 0;
    for (int i = 1; i < count; i++) {
        if (passes(names[i])) {
            passed++;
        } else {
            failed++;
            printf("failed: %s\n", names[i]);
            fflush(stdout);
        }
    }
    printf("%d passed, %d failed\n", passed, failed);
    return failed > 0;
}
