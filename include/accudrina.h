/* Accudrina: a proved prover and verifier for sums of fractions (the fractional sumcheck of LogUp-GKR).
 *
 * Build:  scripts/archive accudrina           writes target/staticlib/libaccudrina.a, for x86-64 Linux
 *         cc -Iinclude main.c target/staticlib/libaccudrina.a
 *
 * Words.  A word is a uint32_t below the prime 2013265921; a word that is not is refused as 6. An element is four words c0..c3,
 *         meaning c0 + c1*x + c2*x^2 + c3*x^3 with x^4 = 11. A row is eight words, p and then q, meaning p/q. Every length below is
 *         counted in the array's own units: bytes of a proof or a sheet, words of all else.
 * Answer. Every call ends with an answer for all bytes, words and lengths. The result is 0 for done or the number of the refusal, and
 *         all sixteen words of `answer` are written: [0] the number, [1] to [3] plain fields, [4] to [7] and [8] to [11] elements,
 *         [12] and [13] what was used up, [14] and [15] zero. A field that an answer does not have is zero.
 * Used.   accudrina_prove, accudrina_verify and accudrina_replay tell in [12] the challenges sampled, in elements, and in [13] the words written at the front
 *         of the log, sampled ones too. Done: accudrina_challenge_words / 4, and accudrina_log_words. Refused by 16 to 19: what the run came
 *         to. A replay tells the verifier's. Any other refusal, no rows or 0 rounds, and the other calls: 0 and 0.
 * Memory. Nothing is allocated or kept between calls: there is no state, and any number of threads may call at once, each with its
 *         own buffers. Each pointer is aligned and not NULL, also with length 0, and what a call writes overlaps nothing else that
 *         it is given. A buffer that is written may be longer than is asked for; of what it held nothing is read, and what is not said to
 *         be written stays as it was. Challenges may be longer too. A proof or a sheet that is read may not: pass its exact bytes
 *         (13 otherwise).
 * Drawn.  With ACCUDRINA_DRAWN each word of a challenge is the first 8 bytes, big-endian, modulo the prime, of SHAKE128 (FIPS 202) over
 *         the ASCII label frac-gkr/1 and all log words so far, 4 bytes each, big-endian, the top bit of sampled words included.
 * Meaning. A verdict of 0 is not yet a result: docs/WHAT-A-PROOF-SAYS.md has what it says and what it does not. With challenges that
 *         are supplied, whoever knows them can make a proof of a false sum that is accepted. */
#ifndef ACCUDRINA_H
#define ACCUDRINA_H

#include <stddef.h>
#include <stdint.h>

#ifdef __cplusplus
extern "C" {
#endif

#define ACCUDRINA_PRIME UINT32_C(2013265921)
#define ACCUDRINA_ANSWER_WORDS 16

/* Modes, bits of one word. A bit that a call does not take is refused as 28, first of all: [1] has the bits that are not taken, and
 * nothing but `answer` is written. */
#define ACCUDRINA_LIVE UINT32_C(1)        /* prover: a row with q = 0 is refused as 7; verifier, replay: a proof whose q0 is 0, as 27 */
#define ACCUDRINA_ASSERT_ZERO UINT32_C(2) /* prover: a sum whose p is not 0 is refused as 8 */
#define ACCUDRINA_DRAWN UINT32_C(4)       /* all three: challenges are drawn from the log, and those lent are not read */
#define ACCUDRINA_SIZED UINT32_C(8)       /* prover: the new proof has version 2, and binds its size; the verifier goes by a proof's first byte */
#define ACCUDRINA_EMPTY UINT32_C(16)      /* verifier, replay: 0 rounds are valid, and not refused as 10 */

/* The results, with the fields of each: plain ones in [1] to [3], elements in [4] to [7] and [8] to [11]. */
enum accudrina_result {
    ACCUDRINA_DONE = 0,                              /* see each call */
    ACCUDRINA_RAGGED_ROWS = 1,                       /* the row words are not a multiple of 8 */
    ACCUDRINA_TOO_MANY_ROWS = 2,                     /* more than 1024 */
    ACCUDRINA_NOT_POWER_OF_TWO = 3,                  /* the rows are neither none nor a power of two */
    ACCUDRINA_SHORT_CHALLENGES = 4,                  /* fewer words than accudrina_challenge_words says; not where they are drawn */
    ACCUDRINA_SHORT_ROOM = 5,                        /* an output or the workspace is too short */
    ACCUDRINA_BAD_WORD = 6,                          /* plain: the place of the first word that is not below the prime, from 0, and its list */
    ACCUDRINA_ZERO_DENOMINATOR = 7,                  /* plain: live mode, the lowest row with q = 0, from 0 */
    ACCUDRINA_NON_ZERO_ROOT_SUM = 8,                 /* a zero sum is asserted, and the sum's p is not 0 */
    ACCUDRINA_SINGLE_ROW = 9,                        /* one row, not refused as 8 */
    ACCUDRINA_ZERO_ROUNDS = 10,                      /* the verifier was given 0 rounds, without ACCUDRINA_EMPTY */
    ACCUDRINA_TOO_MANY_ROUNDS = 11,                  /* more than 10 */
    ACCUDRINA_BAD_VERSION = 12,                      /* no first byte, or no version: 1 of a sheet, 1 or 2 of a proof */
    ACCUDRINA_BAD_LENGTH = 13,                       /* a stored length or count disagrees with the bytes, or a point with the rows */
    ACCUDRINA_INCORRECT_LAYER_COUNT = 14,            /* plain: expected, actual */
    ACCUDRINA_INCORRECT_SUMCHECK_POLY_COUNT = 15,    /* plain: expected, actual */
    ACCUDRINA_ZERO_CHECK_FAILED = 16,                /* elements: the numerator that should be 0 */
    ACCUDRINA_ROOT_CONSISTENCY_CHECK_FAILED = 17,    /* elements: expected, actual */
    ACCUDRINA_INCORRECT_SUBROUND_COUNT = 18,         /* plain: round, expected, actual */
    ACCUDRINA_LAYER_CONSISTENCY_CHECK_FAILED = 19,   /* plain: round; elements: expected, actual */
    ACCUDRINA_INVALID_ZERO_ROUND_VALUE = 22,         /* elements: 0 rounds, and the q0 that should be 1 */
    ACCUDRINA_LOG_MISMATCH = 24,                     /* plain: replay, the place of the log's first word that is not the verifier's, from 0 */
    ACCUDRINA_LOG_SHORT = 25,                        /* plain: replay, the place where the log ends and the verifier's goes on */
    ACCUDRINA_LOG_LONG = 26,                         /* plain: replay, the place where the verifier's log ends and this one goes on */
    ACCUDRINA_ZERO_ROOT = 27,                        /* live verifier, live replay: q0 is 0 */
    ACCUDRINA_UNKNOWN_MODE = 28                      /* plain: the bits of the modes that the call does not take */
};

/* The lists of 6, whose places are counted in words: the rows, the proof's elements (q0, then p0, q0, p1, q1 of each layer, then
 * s(1), s(2), s(3) of each sub-round; no version, length or count), the challenges, the point that is evaluated at. */
enum accudrina_list {
    ACCUDRINA_IN_ROWS = 1,
    ACCUDRINA_IN_PROOF = 2,
    ACCUDRINA_IN_CHALLENGES = 3,
    ACCUDRINA_IN_POINT = 4
};

/* How long the buffers must be, for 0 to 10 rounds; for more rounds the answer is 0, and the calls refuse them. */

/* The rounds n of 2^n rows; 0 for no rows; 11 for a number of rows that is refused. */
size_t accudrina_rounds(size_t rows);
/* The bytes of a proof. */
size_t accudrina_proof_bytes(size_t rounds);
/* The words of the point, four for each round. */
size_t accudrina_point_words(size_t rounds);
/* The words of the log: four more without ACCUDRINA_ASSERT_ZERO, four more with ACCUDRINA_SIZED; other bits are not looked at; 0 for no
 * rounds. The verifier asks with ASSERT_ZERO, and with SIZED for a proof of version 2. */
size_t accudrina_log_words(size_t rounds, uint32_t modes);
/* The words of the prover's workspace. */
size_t accudrina_workspace_words(size_t rounds);
/* The words of the challenges, where they are not drawn. */
size_t accudrina_challenge_words(size_t rounds);

/* Reads a stored sheet: version byte 1, the row count in two bytes, 32 bytes a row, all big-endian.
 * Done: the row count in [1]; the rows' words, eight a row, stand at the front of rows.
 * Refused as the first that fits of 12, 13, 2, 3, 5 (fewer than eight words a row), 6: rows is as it was. */
uint32_t accudrina_read_sheet(const uint8_t *sheet, size_t sheet_len,
                              uint32_t *rows, size_t rows_len,
                              uint32_t answer[ACCUDRINA_ANSWER_WORDS]);

/* Proves the sum of the rows, with the challenges given or drawn; those past the needed ones are not read.
 * Modes. LIVE: a row with q = 0 is refused as 7, 0/0 too; an unused row is 0/1. Otherwise all rows are taken, and one row 0/0 makes
 * the whole sum 0/0. ASSERT_ZERO: a sum whose p is not 0 is refused as 8; otherwise p is put into the log. DRAWN: no challenges are needed,
 * and none that are lent are read. SIZED: the proof has version 2, and the element n, the words n 0 0 0, goes into the log before anything else
 * and so into every drawn challenge; otherwise version 1, whose log does not say how many rounds it belongs to. No rows: only the version byte.
 * Done: the rounds in [1], the sum's p in [4] to [7] and q in [8] to [11]. The proof, the point and the log (the top bit is set in a
 * word that was sampled) stand at the front of their buffers; the needed words of work are 0.
 * Refused as the first that fits of 28, 1 to 9: proof, point and log are as they were; work too, but for 8, which leaves its needed
 * words 0. For no rows or one row only a proof's 23 bytes are needed. */
uint32_t accudrina_prove(const uint32_t *rows, size_t rows_len,
                         uint32_t modes,
                         const uint32_t *challenges, size_t challenges_len,
                         uint8_t *proof, size_t proof_len,
                         uint32_t *point, size_t point_len,
                         uint32_t *log, size_t log_len,
                         uint32_t *work, size_t work_len,
                         uint32_t answer[ACCUDRINA_ANSWER_WORDS]);

/* Verifies a proof, of version 1 or 2, that the sum of 2^rounds rows is zero. proof_len is the proof's exact length.
 * Modes. LIVE: a proof whose q0, the sum's denominator, is 0 is refused as 27. Otherwise that is no reason to refuse, and such a proof
 * says nothing about the rows: q0 is the first element, in the proof's bytes 5 to 20. DRAWN: as in the prover.
 * EMPTY: 0 rounds are valid, for a sheet with no rows: both counts must be 0 and q0 must be 1; accepted, the claims are 0 and 1, and nothing
 * but `answer` is written. accudrina_prove's 23 bytes for no rows are accepted so, in every other mode and with any challenges (proved).
 * Done, accepted: two claims in [4] to [7] and [8] to [11]; the point and the log stand at the front of their buffers. Of every accepted
 * proof that is all: the sheet was not seen, and the caller compares the claims with the values of its columns p and q at the
 * point, which accudrina_evaluate answers.
 * Of a proof that accudrina_prove wrote with ASSERT_ZERO, given the same challenges or both DRAWN, it is proved that it is accepted, that the claims are
 * these values, and that point and log equal the prover's; LIVE that is so where no row has q = 0, and so where the prover was LIVE too.
 * Refused as the first that fits of 28, 10, 11, 4, 12, 5, 13, 6, 14, 15, 22 (0 rounds), 27, then 16 to 19 as the run meets them: the point is as it was;
 * so is the log, but for 16 to 19, which leave what the run observed and sampled until then, [13] words of it. */
uint32_t accudrina_verify(const uint8_t *proof, size_t proof_len,
                          size_t rounds, uint32_t modes,
                          const uint32_t *challenges, size_t challenges_len,
                          uint32_t *point, size_t point_len,
                          uint32_t *log, size_t log_len,
                          uint32_t answer[ACCUDRINA_ANSWER_WORDS]);

/* Replays a proof, of version 1 or 2, from the log that a verifier left: the verdict of accudrina_verify on the log's own challenges, and the log
 * must be exactly the one that it leaves on them, of a rejected proof too. The challenges are the log's words with the top bit set, without it, in their
 * order, with zeros after the last; a word that is not canonical is taken for 0, and so is a mismatch. The log is only read.
 * Modes, and Done, as of accudrina_verify; DRAWN: a sampled word that is not the drawn one is a mismatch. The point stands at its front.
 * Refused as the first that fits of 28, 10, 11, 12, 5 (the point), 13, 6, 14, 15, 22, 27, whatever the log is; then by 24, 25 or 26 where the log is not that
 * of the run, at its lowest place; then by 16 to 19 as the verifier. The point is as it was. 4 is not given.
 * A replay says what the verifier says on these challenges, and not where they came from: a log with other challenges in it is the log of
 * another run. */
uint32_t accudrina_replay(const uint8_t *proof, size_t proof_len,
                          size_t rounds, uint32_t modes,
                          const uint32_t *log, size_t log_len,
                          uint32_t *point, size_t point_len,
                          uint32_t answer[ACCUDRINA_ANSWER_WORDS]);

/* Evaluates a sheet at a point: the values of the columns p and q that an accepted proof claims. It only reads, and is there to
 * compare the two claims of accudrina_verify with the sheet, at the point that it wrote.
 * Done: the rounds n in [1], the value of the column p in [4] to [7] and of q in [8] to [11]. No rows: 0 and 1; one row: its p and q.
 * Refused as the first that fits of 1, 2, 3, 13 (the point has not accudrina_point_words(n) words), 6 (in the rows, then in the point). */
uint32_t accudrina_evaluate(const uint32_t *rows, size_t rows_len,
                            const uint32_t *point, size_t point_len,
                            uint32_t answer[ACCUDRINA_ANSWER_WORDS]);

#ifdef __cplusplus
}
#endif

#endif
