// Compares two traces of `valgrind --tool=lackey --trace-mem=yes`, which come by two descriptors, line by line.
//
//     trace FD FD
//
// Prints `same LINES INSTRUCTIONS`, or `differ LINE`, and then the last instruction of both, and the two lines. What the dynamic loader does
// is left out: it looks at random bytes of the system.
#include <stdio.h>
#include <stdlib.h>
#include <string.h>

// (where valgrind puts the dynamic loader)
#define LOADER 0x4000000UL
#define LOADER_END 0x4040000UL

struct side {
    FILE *lines;
    int is_loader;
    char line[200];
};

// The next line of the program's trace. What it reads and writes stands behind the instruction that does so.
static const char *next(struct side *it) {
    while (fgets_unlocked(it->line, sizeof it->line, it->lines)) {
        if (it->line[0] == 'I') {
            unsigned long at = strtoul(it->line + 1, NULL, 16);
            it->is_loader = LOADER <= at && at < LOADER_END;
        } else if (it->line[0] != ' ') {
            continue;
        }
        if (!it->is_loader)
            return it->line;
    }
    return NULL;
}

static void begin(struct side *it, const char *fd) {
    it->lines = fdopen(atoi(fd), "r");
    if (!it->lines || setvbuf(it->lines, NULL, _IOFBF, 1 << 20)) {
        perror("trace");
        exit(2);
    }
}

int main(int count, char **words) {
    static struct side one, another;
    char last[sizeof one.line] = "";
    unsigned long lines = 0, instructions = 0;

    if (count != 3)
        return 2;
    begin(&one, words[1]);
    begin(&another, words[2]);
    for (;;) {
        const char *a = next(&one), *b = next(&another);
        if (!a && !b)
            break;
        lines++;
        if (!a || !b || strcmp(a, b)) {
            printf("differ %lu\n%s%s%s", lines, last, a ? a : "the end\n", b ? b : "the end\n");
            return 1;
        }
        if (a[0] == 'I') {
            instructions++;
            strcpy(last, a);
        }
    }
    printf("same %lu %lu\n", lines, instructions);
    return 0;
}
