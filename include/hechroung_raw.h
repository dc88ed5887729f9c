/* Hechroung: the proved functions (crates/exports) as the library has them, on numbers and slices, for other languages
   and for programs that keep models in arrays of their own. What a call means, its refusals and their places, and what
   it promises stand in hechroung.h, which includes this header and has the names of all numbers. hechroung_raw_NAME is
   the raw form of hechroung_NAME there; three take a code and serve several: hechroung_raw_call, hechroung_raw_ends and
   hechroung_raw_curve.

   Answers. Those that return a uint8_t return what the function of hechroung.h does; HECHROUNG_MISUSED is then a slice
   that is too short, or a code that names no call.

   Slices. A slice is a pointer and a length in elements. Nothing is read or written outside the lengths that are given;
   a pointer must be to that many elements, aligned and never null, and a slice that is written must not overlap another
   one. With each function stands what is read and what is written, and how long a slice has to be at least; longer ones
   are as good, and what lies after what is written stays. */
#ifndef HECHROUNG_RAW_H
#define HECHROUNG_RAW_H

#include <stddef.h>
#include <stdint.h>

#ifdef __cplusplus
extern "C" {
#endif

/* The codes of hechroung_raw_ends. */
enum hechroung_ends_code {
    HECHROUNG_ENDS_RANGE = 1,
    HECHROUNG_ENDS_INTEGRAL = 2,
    HECHROUNG_ENDS_EVALUATE = 3
};

/* A call that answers with a model. Its codes are those of a sheet's steps, enum hechroung_step_code: 1 constant,
   2 variable, 3 negate, 4 add, 5 subtract, 6 multiply, 7 substitute, 8 sweep, 10 antiderivative. 9 is none of them: a
   quotient takes four models (hechroung_raw_divide). d is the order of multiply, substitute and antiderivative, i the
   variable of variable, substitute and antiderivative, from 1, value the constant or the threshold; what a call does
   not name is not looked at, but the slices of both models are. constant and variable take the n of the first model.
   Read: for each model at least min(count, 64) keys and as many coefficients.
   Written: keys and coefficients, at least 64 each, hold the answer's 64 places; numbers, at least 4, hold the
   refusal's place, n, the count and the radius. */
extern uint8_t hechroung_raw_call(uint8_t code, uint8_t d, uint8_t i, int64_t value,
                                  uint8_t n1, size_t count1, uint64_t radius1,
                                  const uint32_t *keys1, size_t keys1_length,
                                  const int64_t *coefficients1, size_t coefficients1_length,
                                  uint8_t n2, size_t count2, uint64_t radius2,
                                  const uint32_t *keys2, size_t keys2_length,
                                  const int64_t *coefficients2, size_t coefficients2_length,
                                  uint32_t *keys, size_t keys_length,
                                  int64_t *coefficients, size_t coefficients_length,
                                  uint64_t *numbers, size_t numbers_length);

/* Read: f, g, h and w in this order, as hechroung_raw_write_sheet takes a book's models: of ns, counts and radii at
   least 4 entries, of keys and coefficients at least 4 times 64.
   Written: out_keys, out_coefficients and out_numbers as for hechroung_raw_call. */
extern uint8_t hechroung_raw_divide(uint8_t d, const uint8_t *ns, size_t ns_length,
                                    const size_t *counts, size_t counts_length,
                                    const uint64_t *radii, size_t radii_length,
                                    const uint32_t *keys, size_t keys_length,
                                    const int64_t *coefficients, size_t coefficients_length,
                                    uint32_t *out_keys, size_t out_keys_length,
                                    int64_t *out_coefficients, size_t out_coefficients_length,
                                    uint64_t *out_numbers, size_t out_numbers_length);

/* A call that answers with two ends, by enum hechroung_ends_code. The place of a refusal is 0.
   Read: the model as for hechroung_raw_call, and for evaluate the first 8 coordinates of the point, which has at least
   so many, whatever n is; the others take a point of any length and do not look at it.
   Written: ends, at least 4, hold the low and the high end, and the quotient and the remainder of the exact integral;
   these two are 0 for range and evaluate, above four variables, and beside a refusal. */
extern uint8_t hechroung_raw_ends(uint8_t code, uint8_t n, size_t count, uint64_t radius,
                                  const uint32_t *keys, size_t keys_length,
                                  const int64_t *coefficients, size_t coefficients_length,
                                  const int64_t *point, size_t point_length, int64_t *ends, size_t ends_length);

/* Read: the model as for hechroung_raw_call.
   Written: ends, at least 2, hold the low and the high end; numbers, at least 1, hold the refusal's place. */
extern uint8_t hechroung_raw_range_cut(uint8_t d, uint8_t i, uint8_t k, uint8_t n, size_t count, uint64_t radius,
                                       const uint32_t *keys, size_t keys_length,
                                       const int64_t *coefficients, size_t coefficients_length,
                                       int64_t *ends, size_t ends_length, uint64_t *numbers, size_t numbers_length);

/* Read: the sheet, of any length.
   Written: keys, coefficients and numbers as for hechroung_raw_call; ends, at least 6, hold the low and high end of the
   range, then those of the integral, then the quotient and the remainder of the exact integral. */
extern uint8_t hechroung_raw_run_sheet(const uint8_t *sheet, size_t sheet_length,
                                       uint32_t *keys, size_t keys_length,
                                       int64_t *coefficients, size_t coefficients_length,
                                       uint64_t *numbers, size_t numbers_length, int64_t *ends, size_t ends_length);

/* Read: the sheet, of any length.
   Written: keys, coefficients, numbers and ends as for hechroung_raw_run_sheet; shares, at least 4 times
   HECHROUNG_MOST_STEPS, hold four numbers for each of 64 steps: carried, rounding, swept and slack of step i from 4 * i
   on. */
extern uint8_t hechroung_raw_shares_sheet(const uint8_t *sheet, size_t sheet_length,
                                          uint32_t *keys, size_t keys_length,
                                          int64_t *coefficients, size_t coefficients_length,
                                          uint64_t *numbers, size_t numbers_length, int64_t *ends, size_t ends_length,
                                          uint64_t *shares, size_t shares_length);

/* It returns the length of the lines. Written: as much of them as there is room for, at the start of lines. */
extern size_t hechroung_raw_print(const uint8_t *sheet, size_t sheet_length, uint8_t *lines, size_t lines_length);

/* Written: buffer holds the sheet, unless the call is refused; numbers, at least 2, hold the refusal's place and the
   length, 0 with a refusal. */
extern uint8_t hechroung_raw_rewrite(const uint8_t *sheet, size_t sheet_length, uint8_t *buffer, size_t buffer_length,
                                     uint64_t *numbers, size_t numbers_length);

/* It returns the record's length. Written: as much of it as there is room for, at the start of bytes. */
extern size_t hechroung_raw_record(const uint8_t *sheet, size_t sheet_length, size_t i,
                                   uint8_t *bytes, size_t bytes_length);

/* Written: numbers, at least 2, hold the refusal's place and the place of the first record. */
extern uint8_t hechroung_raw_open(const uint8_t *sheet, size_t sheet_length, uint64_t *numbers, size_t numbers_length);

/* Written: as much of the record as there is room for, at the start of bytes; numbers, at least 2, hold its length and
   the place of the next record. */
extern uint8_t hechroung_raw_next(const uint8_t *sheet, size_t sheet_length, size_t at,
                                  uint8_t *bytes, size_t bytes_length, uint64_t *numbers, size_t numbers_length);

/* Read: for at least min(model_count, 16) models an entry of ns, counts and radii and 64 keys and coefficients each;
   for at least min(step_count, 64) steps four bytes of fields (code, a, b, v) and a value.
   Written: buffer and numbers as for hechroung_raw_rewrite. */
extern uint8_t hechroung_raw_write_sheet(uint8_t n, uint8_t d, size_t model_count, size_t step_count,
                                         const uint8_t *ns, size_t ns_length,
                                         const size_t *counts, size_t counts_length,
                                         const uint64_t *radii, size_t radii_length,
                                         const uint32_t *keys, size_t keys_length,
                                         const int64_t *coefficients, size_t coefficients_length,
                                         const uint8_t *fields, size_t fields_length,
                                         const int64_t *values, size_t values_length,
                                         uint8_t *buffer, size_t buffer_length,
                                         uint64_t *numbers, size_t numbers_length);

/* Read: as for hechroung_raw_write_sheet, the models' keys and coefficients as book_keys and book_coefficients.
   Written: keys, coefficients, numbers and ends as for hechroung_raw_run_sheet. */
extern uint8_t hechroung_raw_run_models(uint8_t n, uint8_t d, size_t model_count, size_t step_count,
                                        const uint8_t *ns, size_t ns_length,
                                        const size_t *counts, size_t counts_length,
                                        const uint64_t *radii, size_t radii_length,
                                        const uint32_t *book_keys, size_t book_keys_length,
                                        const int64_t *book_coefficients, size_t book_coefficients_length,
                                        const uint8_t *fields, size_t fields_length,
                                        const int64_t *values, size_t values_length,
                                        uint32_t *keys, size_t keys_length,
                                        int64_t *coefficients, size_t coefficients_length,
                                        uint64_t *numbers, size_t numbers_length, int64_t *ends, size_t ends_length);

/* Read: as for hechroung_raw_run_models. Written: as for hechroung_raw_shares_sheet. */
extern uint8_t hechroung_raw_shares_models(uint8_t n, uint8_t d, size_t model_count, size_t step_count,
                                           const uint8_t *ns, size_t ns_length,
                                           const size_t *counts, size_t counts_length,
                                           const uint64_t *radii, size_t radii_length,
                                           const uint32_t *book_keys, size_t book_keys_length,
                                           const int64_t *book_coefficients, size_t book_coefficients_length,
                                           const uint8_t *fields, size_t fields_length,
                                           const int64_t *values, size_t values_length,
                                           uint32_t *keys, size_t keys_length,
                                           int64_t *coefficients, size_t coefficients_length,
                                           uint64_t *numbers, size_t numbers_length,
                                           int64_t *ends, size_t ends_length,
                                           uint64_t *shares, size_t shares_length);

/* A call that answers with a curve. Its codes are those of a sheet's steps: 3 negate, 4 add, 5 subtract, 6 multiply.
   negate does not look at the second curve, but the length of its slice is tested.
   Read: of each curve the first 16 coefficients, that of T_0 first; there are at least so many.
   Written: coefficients, at least 16, hold the answer's; numbers, at least 2, hold the refusal's place and the
   radius. */
extern uint8_t hechroung_raw_curve(uint8_t code,
                                   const int64_t *coefficients1, size_t coefficients1_length, uint64_t radius1,
                                   const int64_t *coefficients2, size_t coefficients2_length, uint64_t radius2,
                                   int64_t *coefficients, size_t coefficients_length,
                                   uint64_t *numbers, size_t numbers_length);

/* Read: at least 16 coefficients. Written: ends, at least 2, hold the low and the high end. */
extern uint8_t hechroung_raw_range_of_curve(const int64_t *coefficients, size_t coefficients_length, uint64_t radius,
                                            int64_t *ends, size_t ends_length);

/* Read: at least 16 coefficients. Written: keys, out_coefficients and numbers as for hechroung_raw_call. */
extern uint8_t hechroung_raw_curve_to_powers(const int64_t *coefficients, size_t coefficients_length, uint64_t radius,
                                             uint32_t *keys, size_t keys_length,
                                             int64_t *out_coefficients, size_t out_coefficients_length,
                                             uint64_t *numbers, size_t numbers_length);

/* Read: the model as for hechroung_raw_call. Written: out_coefficients and out_numbers as for hechroung_raw_curve. */
extern uint8_t hechroung_raw_curve_from_powers(uint8_t n, size_t count, uint64_t radius,
                                               const uint32_t *keys, size_t keys_length,
                                               const int64_t *coefficients, size_t coefficients_length,
                                               int64_t *out_coefficients, size_t out_coefficients_length,
                                               uint64_t *out_numbers, size_t out_numbers_length);

/* Written: keys, coefficients and numbers as for hechroung_raw_call. */
extern uint8_t hechroung_raw_from_doubles(double c0, double c1, double c2, double radius,
                                          uint32_t *keys, size_t keys_length,
                                          int64_t *coefficients, size_t coefficients_length,
                                          uint64_t *numbers, size_t numbers_length);

/* Read: the model as for hechroung_raw_call; as many readings as lows is long, with 8 coordinates of points each, those
   of reading i from 8 * i on, and a high value. points has at least 8 times that many, highs at least as many.
   Written: numbers, at least 3, hold the refusal's place, 1 if a reading contradicts and else 0, and the number of the
   first that does, from 0; the last two are 0 where none does and beside a refusal. */
extern uint8_t hechroung_raw_hold(uint8_t n, size_t count, uint64_t radius,
                                  const uint32_t *keys, size_t keys_length,
                                  const int64_t *coefficients, size_t coefficients_length,
                                  const int64_t *points, size_t points_length,
                                  const int64_t *lows, size_t lows_length, const int64_t *highs, size_t highs_length,
                                  uint64_t *numbers, size_t numbers_length);

/* Read: the model as for hechroung_raw_call. Written: buffer and numbers as for hechroung_raw_rewrite. */
extern uint8_t hechroung_raw_store_model(uint8_t n, size_t count, uint64_t radius,
                                         const uint32_t *keys, size_t keys_length,
                                         const int64_t *coefficients, size_t coefficients_length,
                                         uint8_t *buffer, size_t buffer_length,
                                         uint64_t *numbers, size_t numbers_length);

/* Read: the bytes, of any length. Written: keys, coefficients and numbers as for hechroung_raw_call. */
extern uint8_t hechroung_raw_restore_model(const uint8_t *bytes, size_t bytes_length, size_t terms,
                                           uint32_t *keys, size_t keys_length,
                                           int64_t *coefficients, size_t coefficients_length,
                                           uint64_t *numbers, size_t numbers_length);

#ifdef __cplusplus
}
#endif
#endif
