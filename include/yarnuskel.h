/* The doors of the Yarnuskel library, target/staticlib/libyarnuskel.a. */
#ifndef YARNUSKEL_H
#define YARNUSKEL_H

#include <stddef.h>
#include <stdint.h>

#ifdef __cplusplus
extern "C" {
#endif

/* The least areas of a flow with n statements: n * arrays mask bytes, n words of live-in and of
   live-out, and YARNUSKEL_WORK_WORDS * n words of work. */
#define YARNUSKEL_WORK_WORDS 64
#define YARNUSKEL_MAX_STATEMENTS 2048
#define YARNUSKEL_MAX_ARRAYS 64
#define YARNUSKEL_MAX_NAMES 64

/* The bytes of a proposed table: a mask for each of two times n rows and each array. */
#define YARNUSKEL_TABLE_BYTES(n, arrays) (2 * (size_t)(n) * (size_t)(arrays))

#define YARNUSKEL_NONE 1
#define YARNUSKEL_AUTO 2
#define YARNUSKEL_DIMMED 4

/* Checks a flow file. Returns 0 where it is fit, and *place is then 0; else the refusal's number, with
   its place in *place. No pointer may be null, even with length 0. */
uint64_t yarnuskel_check(const uint8_t *file, size_t file_length, uint64_t *place);

/* Answers a flow file. Returns 0 where it is accepted: the mask of an array at a statement is then
   masks[statement * arrays + array], bit i of live_in[statement] says that name i is live when the
   statement starts, the work area is zero, *place is 0 and *visits the count of visits. Where the flow has
   an interrupt key (record FK) whose handler's body is opaque, every mask is 7 and *visits 0.
   Else returns the refusal's number, with its place in *place, and leaves every area as it was.
   Lengths count elements. No pointer may be null, even with length 0, and no two areas overlap. */
uint64_t yarnuskel_states(const uint8_t *file, size_t file_length,
                          uint8_t *masks, size_t masks_length,
                          uint64_t *live_in, size_t live_in_length,
                          uint64_t *live_out, size_t live_out_length,
                          uint64_t *work, size_t work_length,
                          uint64_t *place, uint64_t *visits);

/* Answers a flow file with the names that are certainly written: some statement writes the name, and every
   statement that reads it is reached and has a write of it earlier on each walk from the entry over the
   listed successors. Returns 0 where the file is accepted: bit i of *certain says that name i is such a
   name, *place is 0 and the whole work area is zero. In a flow with an interrupt key (record FK) no name is.
   Else returns the refusal's number, with its place in *place; *certain is then 0, and the work area is as it
   was. The work area is the only one lent: it is too short (number 10, place 0) with fewer than
   YARNUSKEL_WORK_WORDS * n words.
   Lengths count elements. No pointer may be null, even with length 0, and no two areas overlap. */
uint64_t yarnuskel_certain(const uint8_t *file, size_t file_length,
                           uint64_t *work, size_t work_length,
                           uint64_t *place, uint64_t *certain);

/* Answers a flow file with the names that interfere: both are live at the start of some statement, or both are live
   at its end or written by it; in a flow with an interrupt key (record FK), both are read or written anywhere.
   Returns 0 where the file is accepted: bit y of rows[x] then says that names x and y interfere, which is the same
   both ways and never so of a name with itself; *most is how many names are live at once, the most at the start of a
   statement; *place is 0, the words of rows past the names of the flow are as they were, and the whole work area is
   zero. Else returns the refusal's number, with its place in *place; *most is then 0, and both areas are as they
   were. Too short (number 10, place 0) are fewer than YARNUSKEL_WORK_WORDS * n words of work, and fewer words of rows
   than the flow has names. The call takes some 33 KiB of stack, for the live sets.
   Lengths count elements. No pointer may be null, even with length 0, and no two areas overlap. */
uint64_t yarnuskel_interference(const uint8_t *file, size_t file_length,
                                uint64_t *rows, size_t rows_length,
                                uint64_t *work, size_t work_length,
                                uint64_t *place, uint64_t *most);

/* Judges a table of masks that was worked out elsewhere. A statement has two rows in it: number i for statement i, and
   number n + i for the same statement inside a subroutine. The mask of an array at number d is
   proposal[d * arrays + array], and there are YARNUSKEL_TABLE_BYTES(n, arrays) of them; what lies behind is not read.
   Returns 0 where the table was judged, and *accepted is 1 for a yes and 0 for a no. A yes: the entry's row holds NONE
   for every array (after the step of what the interrupt key's handler touches, where there is one), and for each edge
   that leaves a row which is not all zero, the row that it leads to holds every state that the edge brings; with an
   opaque handler, every byte is 7; with no statements, always. So, where every move of a run is a listed successor,
   each run finds each array's state in one of the statement's two rows of an accepted table. The masks that
   yarnuskel_states works out, by these rows, are accepted. After a yes and after a no *place is 0 and the whole work
   area is zero; the proposal is never written.
   Else returns the number of the first of these refusals, with its place in *place; *accepted is then 0, and the work
   area is as it was: the file's (1 to 9); 10 at 0 for fewer than YARNUSKEL_WORK_WORDS * n words of work; 10 at 0 for a
   proposal of fewer than YARNUSKEL_TABLE_BYTES(n, arrays) bytes; 11 for a byte over 7 among these, with the index of the
   first of them as its place.
   Lengths count elements. No pointer may be null, even with length 0, and no two areas overlap. */
uint64_t yarnuskel_accept(const uint8_t *file, size_t file_length,
                          const uint8_t *proposal, size_t proposal_length,
                          uint64_t *work, size_t work_length,
                          uint64_t *place, uint64_t *accepted);

#ifdef __cplusplus
}
#endif

#endif
