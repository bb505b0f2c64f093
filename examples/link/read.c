/* Reads a certificate file, judges its claim, writes the file anew and answers it whole: read CERTIFICATE */
#include <stdio.h>
#include <string.h>
#include "vartrymoy.h"

enum {
    STATES = VARTRYMOY_MOST_STATES,
    ACTIONS = VARTRYMOY_MOST_ACTIONS,
    BRANCHES = VARTRYMOY_MOST_BRANCHES,
    BYTES = VARTRYMOY_MOST_BYTES + 1
};

static uint8_t file[BYTES], written[BYTES], marks[STATES], text[VARTRYMOY_TEXT_LEN(STATES)];
static uint32_t action_starts[STATES + 1], branch_starts[ACTIONS + 1];
static uint32_t destinations[BRANCHES], weights[BRANCHES];
static uint32_t costs[STATES], ranks[STATES], choices[STATES];
static uint64_t claims[STATES];

static void print(const char *name, const uint32_t *numbers, size_t count)
{
    size_t i;
    printf("%s", name);
    for (i = 0; i < count; i++)
        printf(" %lu", (unsigned long)numbers[i]);
    printf("\n");
}

static void answer_whole(size_t length)
{
    uint64_t result[VARTRYMOY_WRITTEN_LEN];
    vartrymoy_answer(file, length, marks, STATES, action_starts, STATES + 1,
        branch_starts, ACTIONS + 1, destinations, BRANCHES, weights, BRANCHES,
        costs, STATES, claims, STATES, ranks, STATES, choices, STATES,
        text, sizeof text, result, VARTRYMOY_WRITTEN_LEN);
    fwrite(text, 1, (size_t)result[1], stdout);
}

int main(int argc, char **argv)
{
    uint32_t header[VARTRYMOY_HEADER_LEN], answer[VARTRYMOY_ANSWER_LEN], number;
    uint32_t kind, n, m, b;
    uint64_t result[VARTRYMOY_WRITTEN_LEN];
    size_t length, costs_len, ranks_len, choices_len;
    FILE *in = argc == 2 ? fopen(argv[1], "rb") : NULL;
    if (in == NULL) {
        fprintf(stderr, "usage: read CERTIFICATE\n");
        return 2;
    }
    length = fread(file, 1, BYTES, in);
    fclose(in);

    number = vartrymoy_read(file, length, header, VARTRYMOY_HEADER_LEN,
        marks, STATES, action_starts, STATES + 1, branch_starts, ACTIONS + 1,
        destinations, BRANCHES, weights, BRANCHES, costs, STATES,
        claims, STATES, ranks, STATES);
    print("read", &number, 1);
    if (number != 0) {
        answer_whole(length);
        return 0;
    }

    kind = header[0], n = header[3], m = header[4], b = header[5];
    costs_len = kind >= 5 ? n : 0;
    ranks_len = kind == 2 || kind == 4 || kind >= 7 ? n : 0;
    choices_len = kind == 3 || kind == 4 || kind == 6 || kind == 8 ? n : 0;
    number = vartrymoy_check(kind, header[1], header[2], marks, n,
        action_starts, (size_t)n + 1, branch_starts, (size_t)m + 1,
        destinations, b, weights, b, costs, costs_len, claims, n,
        ranks, ranks_len, choices, choices_len, answer, VARTRYMOY_ANSWER_LEN);
    print("answer", answer, VARTRYMOY_ANSWER_LEN);
    if (number == 0)
        print("choices", choices, choices_len);

    number = vartrymoy_write(kind, header[1], header[2], marks, n,
        action_starts, (size_t)n + 1, branch_starts, (size_t)m + 1,
        destinations, b, weights, b, costs, costs_len, claims, n,
        ranks, ranks_len, written, length, result, VARTRYMOY_WRITTEN_LEN);
    printf("written %lu %lu\n", (unsigned long)result[0], (unsigned long)result[1]);
    if (number == 0)
        puts(result[1] == length && memcmp(written, file, length) == 0 ? "same bytes" : "other bytes");
    answer_whole(length);
    return 0;
}
