/* Proves and verifies 1/1 + 2/1 - 1/1 - 2/1 = 0, prints the claims on the sheet and the point, and compares them with the sheet: with supplied challenges, as document 01 has it, and as a service should: live, with challenges drawn from the log, and a proof that binds its size. */
#include "accudrina.h"
#include <stdio.h>
#include <string.h>

static void print(const char *name, const char *what, const uint32_t *e) {
    printf("%s%s %u,%u,%u,%u\n", name, what, (unsigned)e[0], (unsigned)e[1], (unsigned)e[2], (unsigned)e[3]);
}

/* One run of both calls in the modes of each; 0 where the claims are the sheet's. */
static int run(const char *name, const char *space, const uint32_t rows[32], uint32_t proving, uint32_t verifying,
               const uint32_t *challenges, size_t words) {
    uint8_t proof[200];
    uint32_t point[8], log[68], work[128], answer[ACCUDRINA_ANSWER_WORDS], own[ACCUDRINA_ANSWER_WORDS]; /* accudrina_proof_bytes(2), .. */
    if (accudrina_prove(rows, 32, proving, challenges, words, proof, 200, point, 8, log, 68, work, 128, answer) ||
        accudrina_verify(proof, 200, 2, verifying, challenges, words, point, 8, log, 68, answer)) {
        printf("refused %u\n", (unsigned)answer[0]);
        return 1;
    }
    print(name, "numer", answer + 4);
    print(name, "denom", answer + 8);
    print(name, "point", point);
    print(space, "     ", point + 4);
    printf("%sused %u challenges, %u log words\n", name, (unsigned)answer[12], (unsigned)answer[13]);
    if (accudrina_evaluate(rows, 32, point, 8, own) || memcmp(own + 4, answer + 4, 8 * sizeof *own)) {
        printf("not of this sheet\n");
        return 1;
    }
    printf("of this sheet\n");
    return 0;
}

int main(void) {
    uint32_t rows[4 * 8] = {0}, challenges[16] = {0};
    const uint32_t p[4] = {1, 2, ACCUDRINA_PRIME - 1, ACCUDRINA_PRIME - 2}, supplied[4] = {2, 1, 3, 4};
    const uint32_t modes = ACCUDRINA_LIVE | ACCUDRINA_ASSERT_ZERO;
    for (int i = 0; i < 4; i++) {
        rows[8 * i] = p[i];
        rows[8 * i + 4] = 1;
        challenges[4 * i] = supplied[i];
    }
    return run("", "", rows, modes, 0, challenges, 16) ||
           run("drawn ", "      ", rows, modes | ACCUDRINA_DRAWN | ACCUDRINA_SIZED, ACCUDRINA_LIVE | ACCUDRINA_DRAWN, challenges, 0);
}
