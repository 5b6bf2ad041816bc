/* The checker, the bound on steps, the claim lines and the runner for C: link with target/staticlib/libexports.a (rt staticlib exports).
   The setting of lines: link with target/staticlib/libwriter_exports.a (rt staticlib writer_exports).
   Every pointer is valid for its length, and none may be null, also where its length is 0. */
#ifndef RITHWELLU_H
#define RITHWELLU_H

#include <stddef.h>
#include <stdint.h>

#ifdef __cplusplus
extern "C" {
#endif

/* The checker's answer for the len bytes at listing, which may be any bytes:
   answer[0] the number of the refusal, or 0 where the listing passes;
   answer[1] its place, a line counted from 1, or 0;
   answer[2] its second place, for 14 the line of the claim, else 0;
   answer[3] the number of points of a passed listing, else 0. */
void rithwellu_check(const uint8_t *listing, size_t len, uint64_t answer[4]);

/* The line of 40 bytes that the program prints for the listing. */
void rithwellu_print(const uint8_t *listing, size_t len, uint8_t line[40]);

/* How many steps a run needs at most from point 0, from a state that meets the claims there:
   answer[0] the number of the refusal, 1 to 14, 19 or 20, or 0;
   answer[1] its place, a line counted from 1, or 0;
   answer[2] its second place, for 14 the line of the claim, else 0;
   answer[3] the bound, up to 2,199,023,255,552, else 0.
   A run with the bound or more for its budget ends stopped, and so do runs, each taken up where the last one paused,
   whose budgets add up to it. */
void rithwellu_step_bound(const uint8_t *listing, size_t len, uint64_t answer[4]);

/* The line of 40 bytes that the program prints for the steps of the listing: STEP with the bound at its end, or FAIL. */
void rithwellu_print_bound(const uint8_t *listing, size_t len, uint8_t line[40]);

/* The claim lines of a point, as the part of the listing that holds them:
   answer[0] the number of the refusal, 1 to 11, 16 or 19, or 0;
   answer[1] its place, a line counted from 1, or 0; none of them has a second place;
   answer[2] where the part begins, in bytes from the start of the listing;
   answer[3] how many bytes it has, 0 where the point has no claims.
   A call that is turned back has 0 in answer[2] and answer[3]. */
void rithwellu_claim_lines(const uint8_t *listing, size_t len, size_t point, uint64_t answer[4]);

/* What a field of a line that is set holds. */
enum { RITHWELLU_BLANK = 0, RITHWELLU_NUMBER = 1, RITHWELLU_NEGATIVE = 2 };

/* Sets one line of the listing, counted from 1, to the word of word_len bytes at word and the fields F1 to F6.
   kinds[j] says what a field holds; any other kind than the three above is a field of wrong shape.
   numbers[j] is its number, of a negative one without its minus; that of a blank is not looked at.
   answer[0] the number of the refusal, 3, 4, 5, 19 or 18 in this order, or 0 where the line was set;
   answer[1] for 3, 4, 5 and 19 the line as given, else 0.
   Every other byte stays, and a call that is turned back changes none. The listing may have any length; line is from
   1 to 1,638 and ends within the listing, or it is 18. The listing must not overlap what else is lent. */
void rithwellu_set_line(const uint8_t *word, size_t word_len, const uint8_t kinds[6], const uint64_t numbers[6],
                        size_t line, uint8_t *listing, size_t len, uint64_t answer[2]);

/* A run of the listing from a point and sixteen registers, over both tables, with a budget of steps.
   The registers and the results then hold what the run hands back:
   answer[0] 0 stopped, 1 paused, 2 turned back;
   answer[1] to answer[3] the number of the refusal, its place and its second place, else 0;
   answer[4] the steps made;
   answer[5] the point of the state handed back.
   A run that is turned back changes no register and no byte of the results. The lent parts must not overlap. */
void rithwellu_run(const uint8_t *listing, size_t len, size_t point, uint32_t registers[16],
                   const uint8_t *trays, size_t trays_len, uint8_t *results, size_t results_len,
                   uint32_t budget, uint64_t answer[6]);

/* A state: a point and the registers. */
typedef struct {
    size_t point;
    uint32_t registers[16];
} rithwellu_state;

/* The same run on a lent state, which it changes in place. */
void rithwellu_run_in_place(const uint8_t *listing, size_t len, rithwellu_state *state,
                            const uint8_t *trays, size_t trays_len, uint8_t *results,
                            size_t results_len, uint32_t budget, uint64_t answer[6]);

#ifdef __cplusplus
}
#endif

#endif
