/*
 * A module at work: loads its frame table and dispatches, tick by tick.
 *
 *     gcc -O2 -Wall -Wextra -Werror -Iinclude examples/module.c target/lib/libghozrembu.a -o target/module
 *     target/module TABLE [TICKS]
 *
 * TABLE is a file that the builder program wrote (`./ghozrembu build DIR PREFIX` writes PREFIX00.bin for module 0 and
 * so on). One line a tick: its number from 0 on, and the partition that runs or `idle`. TICKS is 20 unless given.
 * Exit status: 0 dispatched, 1 no sound table, 2 bad usage or no such file.
 */
#include <stdio.h>
#include <stdlib.h>

#include "ghozrembu.h"

/* The ticks asked for, or -1 when the word is no number. */
static long ticks_of(const char *word)
{
    char *end;
    long ticks = strtol(word, &end, 10);
    return *word != '\0' && *end == '\0' && ticks >= 0 ? ticks : -1;
}

int main(int argc, char **argv)
{
    /* One byte more than the longest table, so that a file that is too long is seen. */
    static uint8_t table[GHOZREMBU_LONGEST_TABLE + 1];
    long ticks = argc == 3 ? ticks_of(argv[2]) : 20;
    if (argc < 2 || argc > 3 || ticks < 0) {
        fprintf(stderr, "usage: module TABLE [TICKS]\n");
        return 2;
    }
    FILE *file = fopen(argv[1], "rb");
    if (file == NULL) {
        perror(argv[1]);
        return 2;
    }
    size_t length = fread(table, 1, sizeof table, file);
    fclose(file);

    /* Only sound tables carry the promise, so the test comes first, once. */
    if (ghozrembu_table_number(table, length) != GHOZREMBU_DONE) {
        fprintf(stderr, "%s is no sound frame table (%u)\n", argv[1], (unsigned)GHOZREMBU_TABLE);
        return 1;
    }
    ghozrembu_position at = GHOZREMBU_FRESH;
    for (long tick = 0; tick < ticks; tick++) {
        ghozrembu_stepped step = ghozrembu_step(table, length, &at);
        if (step.number != GHOZREMBU_DONE) {
            fprintf(stderr, "tick %ld: refused with %u\n", tick, (unsigned)step.number);
            return 1;
        }
        if (step.partition == GHOZREMBU_IDLE)
            printf("%ld idle\n", tick);
        else
            printf("%ld %u\n", tick, (unsigned)step.partition);
    }
    return 0;
}
