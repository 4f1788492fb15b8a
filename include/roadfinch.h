/* Roadfinch: records of sets, and runs of colours along a unitig. The functions of libcapi.a, each proved to do what its
 * comment says.
 *
 * Answers. 0 is success; any other answer is the number of a refusal (RF_COLORS and so on). On a refusal nothing that was
 * lent has changed: no buffer and no number behind a pointer. Where several things are wrong, the refusal is the first in
 * the order in which the function's comment lists them.
 *
 * Memory. The caller owns everything. A buffer is a pointer and the number of its items; it is lent for the call and nothing
 * is kept. No pointer may be NULL, also where its length is 0. What is written (non-const) may not overlap anything else
 * that is lent to the same call. A success writes its result from the front of the output and leaves the rest of the output
 * as it was. Nothing is allocated, no state is held, and the functions may be called from any number of threads. Long records
 * are written and read with room on the stack: a thread with 80 KiB of it is enough.
 *
 * Sets. n is the colour count; ids lie from 0 to n - 1.
 *
 * Runs. A run is one number: the low 24 bits are its offset, the first vertex that it colours, and the high 40 bits its
 * coordinate. Run i colours the vertices from its offset up to the next run's, or up to the vertex count n. A list is
 * steady for n if it is empty, or starts at offset 0, never descends and has no offset above n. It is sharp for n if it is
 * not empty, starts at offset 0, ascends strictly and stays below n.
 */
#ifndef ROADFINCH_H
#define ROADFINCH_H

#include <stdbool.h>
#include <stddef.h>
#include <stdint.h>

#ifdef __cplusplus
extern "C" {
#endif

/* The refusals that these functions give. The numbers from 8 to 16 are told by the numbered store, which has no C functions. */
enum {
    RF_OK = 0,
    RF_COLORS = 1,   /* the colour count is outside 1 to 1,048,576 */
    RF_IDS = 2,      /* the ids are not strictly ascending, or one is not below the colour count */
    RF_SPACE = 3,    /* the output is too short */
    RF_CUT = 4,      /* the input ends too early */
    RF_DAMAGED = 5,  /* the input is no written form */
    RF_RUNS = 6,     /* a run list is not as the operation admits it */
    RF_VERTICES = 7  /* a vertex count is outside its limits */
};

/* The limits. */
#define RF_MAX_COLORS 1048576u
#define RF_MAX_VERTICES 16777215u

/* Bytes that the record of any set out of n colours fits into: a payload has at most 4 (n + 1) bytes. */
#define RF_MAX_RECORD(n) (5u + 4u * ((size_t)(n) + 1u))

/* A run from its offset (24 bits) and coordinate (40 bits), and back. */
#define RF_RUN(offset, coordinate) ((uint64_t)(coordinate) << 24 | (uint64_t)(offset))
#define RF_OFFSET(run) ((uint32_t)((run) & 0xFFFFFFu))
#define RF_COORDINATE(run) ((uint64_t)(run) >> 24)

/* Writes the record of a set, a length prefix (LEB128) and a payload, to the front of out.
 * ids: the set, ascending. *written: the bytes written.
 * Refuses: RF_COLORS; RF_IDS; RF_SPACE, out is shorter than the record. */
uint32_t rf_write_record(uint32_t n,
                         const uint32_t *ids, size_t ids_len,
                         uint8_t *out, size_t out_len,
                         uint64_t *written);

/* Reads the record at the front of input, and ignores what follows it, to the front of ids.
 * *given: the ids written. *taken: the bytes of the record.
 * Only written forms are read: a needless zero group in the prefix, a set padding bit, a needless byte, an id not below n
 * are damage.
 * Refuses: RF_COLORS; RF_CUT or RF_DAMAGED by the prefix (cut: fewer than five bytes, none below 0x80); RF_CUT, fewer bytes
 * follow than the prefix says; RF_DAMAGED, the payload is that of no set; RF_SPACE, more ids than ids_len. */
uint32_t rf_read_record(uint32_t n,
                        const uint8_t *input, size_t input_len,
                        uint32_t *ids, size_t ids_len,
                        uint64_t *given, uint64_t *taken);

/* Writes the start of each of the first count records of a file, and the end of the last, to the front of out: count + 1
 * entries; count 0 gives just 0. Payloads are skipped and not judged; bytes behind the last counted record are ignored.
 * Refuses: RF_SPACE, out_len is not above count; then record by record RF_CUT or RF_DAMAGED by its prefix, RF_CUT for a
 * payload that the file cuts. */
uint32_t rf_make_index(const uint8_t *bytes, size_t bytes_len,
                       uint64_t count,
                       uint64_t *out, size_t out_len);

/* Writes a steady list as read from its other end, as many runs, to the front of out.
 * *count: the runs written, runs_len.
 * Refuses: RF_VERTICES, n above 16,777,215; RF_RUNS, not steady for n; RF_SPACE. */
uint32_t rf_reverse_runs(const uint64_t *runs, size_t runs_len,
                         uint32_t n,
                         uint64_t *out, size_t out_len,
                         uint64_t *count);

/* The same in the list's own place.
 * Refuses: RF_VERTICES, n above 16,777,215; RF_RUNS, not steady for n. */
uint32_t rf_reverse_runs_in_place(uint64_t *runs, size_t runs_len,
                                  uint32_t n,
                                  uint64_t *count);

/* Appends a piece of piece_count vertices, reversed first where reverse is true, to the output: the first used runs of out,
 * of out_count vertices. The piece's first vertex is the output's last, so its runs begin out_count - 1 vertices further on.
 * A run of the (reversed) piece that has the coordinate of the run before it, which for the first one is the output's last,
 * is left out. Writes behind the first used runs of out, which stay as they are.
 * *count: the runs that the output has now. *vertices: its vertices, out_count + piece_count - 1.
 * Refuses: RF_SPACE, used above out_len; RF_VERTICES, a count is 0 or the new one above 16,777,215; RF_RUNS, the output is
 * empty, not steady for out_count, or has its last offset not below out_count; RF_RUNS, the piece is not sharp for
 * piece_count; RF_SPACE, out is too short for the new runs. */
uint32_t rf_append_runs(uint64_t *out, size_t out_len,
                        uint64_t used, uint32_t out_count,
                        const uint64_t *piece, size_t piece_len,
                        uint32_t piece_count, bool reverse,
                        uint64_t *count, uint64_t *vertices);

/* Writes the runs of a cycle of n vertices, reversed first where reverse is true, with its colours turned left by
 * pivot mod n and equal neighbours merged, to the front of out. No runs, or n = 0, give none. The result may have one run
 * more than the list.
 * *count: the runs written.
 * Refuses: RF_VERTICES, n above 16,777,215; RF_RUNS, not steady for n; RF_SPACE, out is too short for the merged runs. */
uint32_t rf_rotate_runs(const uint64_t *runs, size_t runs_len,
                        uint32_t n, uint32_t pivot, bool reverse,
                        uint64_t *out, size_t out_len,
                        uint64_t *count);

/* Writes a run list as bytes, its count as LEB128 and 8 bytes a run, low byte first, to the front of out. Any runs will do.
 * *written: the bytes written.
 * Refuses: RF_RUNS, more than 4,294,967,295 runs; RF_SPACE. */
uint32_t rf_write_runs(const uint64_t *runs, size_t runs_len,
                       uint8_t *out, size_t out_len,
                       uint64_t *written);

/* Reads the run bytes at the front of bytes, and ignores what follows them, to the front of out. The runs are not judged.
 * *given: the runs written. *taken: the bytes read.
 * Refuses: RF_CUT or RF_DAMAGED by the prefix, as in rf_read_record; RF_CUT, runs cut short; RF_SPACE. */
uint32_t rf_read_runs(const uint8_t *bytes, size_t bytes_len,
                      uint64_t *out, size_t out_len,
                      uint64_t *given, uint64_t *taken);

#ifdef __cplusplus
}
#endif

#endif
