/* Teravulk: a trial of duct-pressure controllers, bytes in, text out; and the layout of a plan's clusters, bytes in, bytes out.
 *
 * Link with libteravulk.a (x86-64 Linux): `rt lib` in crates/teravulk_c writes it as out/libteravulk_c.a there; copy it under this name, as
 * examples/run does. examples/ has callers in C and in Rust. */
#ifndef TERAVULK_H
#define TERAVULK_H

#include <stddef.h>
#include <stdint.h>

#ifdef __cplusplus
extern "C" {
#endif

/* A buffer of so many bytes has room for the text of every trial. */
#define TERAVULK_PAGE 2048

/* Runs the trial file of `count` bytes at `bytes` and writes its lines, those that the program `bench` prints, to `out`, which has `room` bytes.
 *
 * Answers how many bytes it wrote, from out[0] on: the whole text, always at least the line `end NUMBER PLACE`, each line ended by a line feed,
 * with no 0 behind it. The rest of `out` is left as it was. Where `room` is too short for the whole text it answers 0 and leaves all of `out` as
 * it was; no text is empty, so 0 means nothing else.
 *
 * All of this is proved, for every content and length of both: any bytes, none too, and more than 65,536, which give `end 19 65536`. Equal bytes
 * give equal text.
 *
 * It keeps nothing between calls, allocates nothing, calls nothing but memcpy and memset, and writes to no memory but `out` and its own stack. So
 * any number of threads may call it at once, each with an `out` of its own. It takes at most 93 KB of stack (measured with rattle-kit-5b). These are
 * not proved but checked: examples/run looks for the archive's data and calls, and has the callers run in 128 KB of stack.
 *
 * What the caller owes: neither pointer is NULL, also where its length is 0; `bytes` can be read and `out` read and written for the lengths given;
 * the two do not overlap; and nothing else writes to either, or reads `out`, during the call. */
size_t teravulk_trial(const uint8_t *bytes, size_t count, uint8_t *out, size_t room);

/* Lays out the clusters of the plan that the `count` bytes at `bytes` begin with, and writes the plan to `out`, which has `room` bytes.
 *
 * The lowest node that no cluster has yet becomes a root; nodes are claimed breadth first down to `depth` links below it, whoever was claimed
 * earlier claiming first, each its lowest neighbours first; and so on until all are claimed. The parent of a node is the node that claimed it, and
 * the preferred link of two joined clusters is the first in the plan. What stands in the plan for parents and flags does not matter.
 *
 * Answers 0 and sets *place to the plan's length: out[0] to out[*place - 1] is the plan with its new parents and flags, as long as it was, with
 * rounds, values and links unchanged, no node deeper than `depth`, and always accepted by teravulk_trial. The rest of `out` is left as it was. Or
 * answers the first of these that applies, sets *place, and leaves all of `out` as it was:
 *
 *   1 to 5   a record of the plan is wrong        *place: its offset in `bytes` (trials/README.md says which is which)
 *   10       a node is cut off from node 0        *place: the lowest such node
 *   22       `depth` is above 63                  *place: 0
 *   23       `room` is shorter than the plan      *place: 0
 *
 * A plan is at most `count` bytes long, so 23 is not answered where `room` is at least `count`. Bytes behind the plan's end are neither read nor
 * copied.
 *
 * All of this is proved, for every content and length of both, and every `depth`. What is said above of data, calls, memory and threads holds of
 * this function too. It takes at most 19 KB of stack (measured with rattle-kit-5b).
 *
 * What the caller owes is as above; besides, `place` is not NULL and can be read and written, it overlaps neither `bytes` nor `out`, and nothing
 * else reads or writes it during the call. */
size_t teravulk_layout(const uint8_t *bytes, size_t count, size_t depth, uint8_t *out, size_t room, size_t *place);

#ifdef __cplusplus
}
#endif

#endif
