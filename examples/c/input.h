/* Files of the examples' command lines. */
#ifndef INPUT_H
#define INPUT_H

#include "tazhikko.h"

#include <stdio.h>

/* Room for one byte more than a set, the longest of them, so that a longer file is refused and not cut. */
struct input {
    uint8_t bytes[TAZHIKKO_SET_BYTES + 1];
    size_t len;
};

static int read_input(const char *path, struct input *input)
{
    FILE *file = fopen(path, "rb");
    if (file == NULL) {
        perror(path);
        return 0;
    }
    input->len = fread(input->bytes, 1, sizeof input->bytes, file);
    int whole = !ferror(file);
    fclose(file);
    return whole;
}

/* The two numbers of a refusal. Hands back the program's status. */
static int print_refusal(uint64_t refusal)
{
    printf("refused %u %u\n", TAZHIKKO_CAUSE(refusal), TAZHIKKO_SECOND(refusal));
    return 1;
}

#endif
