/* What the tests of this folder share: the count of what held, and the header block of the description's case L. */
#include <stdint.h>
#include <stdio.h>

static int passed, failed;

static void check(int holds, const char *what, const char *file, int line)
{
    if (holds) {
        passed++;
        return;
    }
    failed++;
    printf("%s:%d: not so: %s\n", file, line, what);
}

#define HOLDS(test) check((test) != 0, #test, __FILE__, __LINE__)
#define SAME(actual, expected) check((int64_t)(actual) == (int64_t)(expected), #actual " is " #expected, __FILE__, __LINE__)

static int finish(void)
{
    printf("%d passed, %d failed\n", passed, failed);
    return failed != 0;
}

/* Code 0022, one scan type, one set of 4 channels, B 12, I 2 ms, one block. */
static const uint8_t case_l[64] = {
    0x00, 0x07, 0x00, 0x22, 0, 0, 0, 0, 0, 0, 0x80, 0x00, 0x45, 0x09, 0x30, 0x00, 0x00, 0x00, 0x01, 0x00, 0x00, 0x12, 0x20, 0x00, 0x00,
    0x80, 0x05, 0x01, 0x01, 0x00, 0x00, 0x00, /* the descriptor */ 0x01, 0x01, 0, 0, 0, 0x02, 0, 0, 0x00, 0x04, 0x10,
};
