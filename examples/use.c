/* The rack test from C: all calls, on the set whose file is named.
 *
 *     cc -Iinclude examples/use.c target/staticlib/librack.a -o target/use_c
 *     target/use_c examples/x.set */
#include <stdio.h>

#include "rack.h"

/* Prints what a verdict says; gives 0 where the set was refused. */
static int print_verdict(const char *call, struct rack_verdict verdict) {
    switch (verdict.number) {
    case RACK_OK:
        printf("%s: accepted\n", call);
        return 1;
    case RACK_OVERRUN:
        printf("%s: %llu ticks may carry %llu units\n", call, (unsigned long long)verdict.x,
               (unsigned long long)verdict.w);
        return 1;
    default:
        printf("refused %llu at record %llu\n", (unsigned long long)verdict.number,
               (unsigned long long)verdict.place);
        return 0;
    }
}

/* Hands in the set as a poor link does, in parts that end anywhere. */
static struct rack_verdict upload_in_parts(const uint8_t *set, size_t len, size_t part_len) {
    static uint8_t room[65536];
    struct rack_upload upload = rack_upload_begin();
    for (size_t at = 0; at < len; at += part_len) {
        size_t left = len - at;
        rack_upload_part(&upload, room, sizeof room, set + at, left < part_len ? left : part_len);
    }
    return rack_upload_close(&upload, room, sizeof room, 2, 1, 1);
}

int main(int count, char **names) {
    static uint8_t set[65537]; /* what the program takes, and a byte more, to notice a longer set */
    FILE *file = count == 2 ? fopen(names[1], "rb") : NULL;
    if (file == NULL) {
        fputs("usage: use_c SET\n", stderr);
        return 2;
    }
    size_t len = fread(set, 1, sizeof set, file);
    if (ferror(file) || !feof(file)) { /* a failed read is no end of the set */
        fputs("the set cannot be read, or is too long\n", stderr);
        return 2;
    }
    fclose(file);

    if (!print_verdict("judge on 2 processors at 1/1", rack_judge(set, len, 2, 1, 1)))
        return 1;

    /* With 0/0 the library picks the speed and names it: there is one, since no task was dense. */
    struct rack_verdict verdict = rack_judge(set, len, 2, 0, 0);
    printf("judge on 2 processors at 0/0: the speed is %llu/%llu\n", (unsigned long long)verdict.p,
           (unsigned long long)verdict.q);

    struct rack_task_figures figures = rack_figures(set, len, 0);
    printf("figures of task 0: length %llu, volume %llu\n", (unsigned long long)figures.length,
           (unsigned long long)figures.volume);

    struct rack_task_demand demand = rack_demand(set, len, 0, 1, 1, 65);
    if (demand.number == RACK_OK)
        printf("demand of task 0 at 1/1, tick 65: %llu\n", (unsigned long long)demand.work);

    uint32_t table[512];
    struct rack_task_layers layers = rack_layers(set, len, 0, 1, 1, table, 512);
    printf("layers of task 0 at 1/1:");
    for (uint64_t i = 0; i < layers.pairs; i++)
        printf(" (%u,%u)", (unsigned)table[2 * i], (unsigned)table[2 * i + 1]);
    putchar('\n');

    verdict = upload_in_parts(set, len, 7);
    print_verdict("upload in parts of 7 bytes, judged on 2 processors at 1/1", verdict);
    return 0;
}
