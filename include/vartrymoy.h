/* Vartrymoy: judges claims about finite Markov decision processes, reads and
 * writes their files, and answers a file whole, from its bytes to the text that
 * is printed.
 *
 * Each table is a pointer and its number of entries. A pointer must not be
 * null, also for a table with no entries, and the entries behind it must be
 * there for the length given. What is written must not overlap anything else
 * that is lent. Nothing is kept after a call returns, and nothing is
 * allocated. */
#ifndef VARTRYMOY_H
#define VARTRYMOY_H

#include <stddef.h>
#include <stdint.h>

#ifdef __cplusplus
extern "C" {
#endif

/* "None", as a rank, as a choice and as an action. */
#define VARTRYMOY_NONE 4294967295u

/* Entries of `answer`, of `header` and of `result`. */
#define VARTRYMOY_ANSWER_LEN 4
#define VARTRYMOY_HEADER_LEN 6
#define VARTRYMOY_WRITTEN_LEN 2

/* The most states, actions and branches of a model, and the most bytes of a
 * file. */
#define VARTRYMOY_MOST_STATES 20000
#define VARTRYMOY_MOST_ACTIONS 100000
#define VARTRYMOY_MOST_BRANCHES 1000000
#define VARTRYMOY_MOST_BYTES 8820034

/* The room for what may be printed of so many states. */
#define VARTRYMOY_TEXT_LEN(states) (64 + 32 * (size_t)(states))

/* Judges the claim that the tables make. Returns 0 for accepted, 21 to 24 for
 * a violated condition, 1 to 14 for tables that are refused.
 *
 * A claim of kinds 1 to 4 bounds the part of a cohort that has reached a
 * target. A claim of kinds 5 to 8 bounds the cost of each stay up to and
 * including the admission at the target, whose own cost counts once.
 *
 * Written:
 * answer   the number returned; then R (0), the state (21 to 24) or the place
 *          (1 to 14); then the action or none; then `kind` as given. With a
 *          length that is not 4 the call returns a number of 1 to 14, 5 if the
 *          tables themselves are not refused, and writes nothing at all.
 * choices  only when a claim of kind 3, 4, 6 or 8 is accepted: an action for
 *          each state, or none.
 *
 * costs has entries for kinds 5 to 8, ranks for kinds 2, 4, 7 and 8, choices
 * for kinds 3, 4, 6 and 8; elsewhere their length is 0. */
uint32_t vartrymoy_check(
    uint32_t kind, uint32_t d, uint32_t c,
    const uint8_t *marks, size_t marks_len,
    const uint32_t *action_starts, size_t action_starts_len,
    const uint32_t *branch_starts, size_t branch_starts_len,
    const uint32_t *destinations, size_t destinations_len,
    const uint32_t *weights, size_t weights_len,
    const uint32_t *costs, size_t costs_len,
    const uint64_t *claims, size_t claims_len,
    const uint32_t *ranks, size_t ranks_len,
    uint32_t *choices, size_t choices_len,
    uint32_t *answer, size_t answer_len);

/* Reads a certificate file. Returns 0, or the number of the refusal: 31, 32,
 * 1, 33 or 34, and 5 for a `header` whose length is not 6. A refusal writes
 * nothing.
 *
 * Written when 0 comes back:
 * header   kind, d, c, n, m, b: the numbers of states, actions and branches.
 * tables   the first entries of each: marks, claims n; action_starts n + 1;
 *          branch_starts m + 1; destinations, weights b; costs, ranks n where
 *          the kind has them. A table may be longer, and its other entries
 *          stay. */
uint32_t vartrymoy_read(
    const uint8_t *file, size_t file_len,
    uint32_t *header, size_t header_len,
    uint8_t *marks, size_t marks_len,
    uint32_t *action_starts, size_t action_starts_len,
    uint32_t *branch_starts, size_t branch_starts_len,
    uint32_t *destinations, size_t destinations_len,
    uint32_t *weights, size_t weights_len,
    uint32_t *costs, size_t costs_len,
    uint64_t *claims, size_t claims_len,
    uint32_t *ranks, size_t ranks_len);

/* Writes the tables as a certificate file. Returns 0, or the number of the
 * refusal: 1 to 14 as vartrymoy_check gives them, with no choice list looked
 * at; then 35 for a `buffer` that is shorter than the file; then 5 for a
 * `result` whose length is not 2. Whether the claim holds is not judged.
 *
 * Written:
 * buffer   only when 0 comes back: the file, at the front. The rest stays. No
 *          file is longer than VARTRYMOY_MOST_BYTES.
 * result   the number returned; then the length of the file (0) or the place
 *          of the refusal. With a length that is not 2 nothing at all is
 *          written.
 *
 * costs has entries for kinds 5 to 8, ranks for kinds 2, 4, 7 and 8; elsewhere
 * their length is 0. */
uint32_t vartrymoy_write(
    uint32_t kind, uint32_t d, uint32_t c,
    const uint8_t *marks, size_t marks_len,
    const uint32_t *action_starts, size_t action_starts_len,
    const uint32_t *branch_starts, size_t branch_starts_len,
    const uint32_t *destinations, size_t destinations_len,
    const uint32_t *weights, size_t weights_len,
    const uint32_t *costs, size_t costs_len,
    const uint64_t *claims, size_t claims_len,
    const uint32_t *ranks, size_t ranks_len,
    uint8_t *buffer, size_t buffer_len,
    uint64_t *result, size_t result_len);

/* Answers a certificate file: reads it, judges its claim and prints what comes
 * of it. Returns the number that is printed: 0 for accepted, 21 to 24 for a
 * violated condition, 31 to 34 for a file and 1 to 14 for tables that are
 * refused. A file over VARTRYMOY_MOST_BYTES is 33 before all else.
 *
 * Written:
 * text     what is printed, at the front: "accepted R", "violated NUMBER STATE
 *          ACTION" or "refused NUMBER PLACE" and a newline, with "-" for none;
 *          after an accepted claim of kind 3, 4, 6 or 8 a line for each state.
 *          No zero byte ends it, and the rest stays.
 * result   the number returned; then how many bytes of text were printed.
 * choices  as vartrymoy_check writes them, in the first n entries.
 * tables   as vartrymoy_read fills them; they are the room that the file is
 *          read into.
 *
 * Where choices is shorter than marks, text shorter than VARTRYMOY_TEXT_LEN of
 * the entries of marks, or the length of result is not 2, the call returns the
 * number of the refusal over the file or its tables, and 5 if there is none;
 * then text, result and choices are not written. */
uint32_t vartrymoy_answer(
    const uint8_t *file, size_t file_len,
    uint8_t *marks, size_t marks_len,
    uint32_t *action_starts, size_t action_starts_len,
    uint32_t *branch_starts, size_t branch_starts_len,
    uint32_t *destinations, size_t destinations_len,
    uint32_t *weights, size_t weights_len,
    uint32_t *costs, size_t costs_len,
    uint64_t *claims, size_t claims_len,
    uint32_t *ranks, size_t ranks_len,
    uint32_t *choices, size_t choices_len,
    uint8_t *text, size_t text_len,
    uint64_t *result, size_t result_len);

#ifdef __cplusplus
}
#endif

#endif
