/* Checks a proposal, or its original and it by themselves, so many times; bench/measure counts the instructions.
   Usage: proposals both|proposal ORIGINAL PROPOSAL TIMES. Prints the last answer's number, row and word. */
#include <noemathu.h>
#include <stdio.h>
#include <stdlib.h>
#include <string.h>

static uint8_t original[NOEMATHU_BUNDLE_MOST], proposal[NOEMATHU_BUNDLE_MOST];

static size_t read_file(const char *path, uint8_t *bytes)
{
    FILE *file = fopen(path, "rb");
    if (!file) {
        perror(path);
        exit(2);
    }
    size_t length = fread(bytes, 1, NOEMATHU_BUNDLE_MOST, file);
    fclose(file);
    return length;
}

int main(int argc, char **argv)
{
    if (argc != 5) {
        fprintf(stderr, "usage: proposals both|proposal ORIGINAL PROPOSAL TIMES\n");
        return 2;
    }
    size_t length = read_file(argv[2], original), proposed = read_file(argv[3], proposal);
    noemathu_refusal refusal = {0, 0, 0};
    for (long times = atol(argv[4]); times > 0; times--) {
        if (strcmp(argv[1], "proposal") == 0) {
            refusal = noemathu_check_proposal(original, length, proposal, proposed);
        } else {
            refusal = noemathu_check(original, length);
            if (!refusal.number)
                refusal = noemathu_check(proposal, proposed);
        }
    }
    printf("%u %u %u\n", (unsigned)refusal.number, (unsigned)refusal.row, (unsigned)refusal.word);
    return 0;
}
