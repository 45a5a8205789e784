/* Pulpmitten for C and C++: the functions of target/staticlib/libexports.a, a copy of crates/exports_c's library.
 * A list is a pointer and a length. No pointer may be NULL, also where the length is 0, and nothing that is
 * written may overlap anything else. A call takes some 150 KiB of stack and no heap. */
#ifndef PULPMITTEN_H
#define PULPMITTEN_H

#include <stddef.h>
#include <stdint.h>

#ifdef __cplusplus
extern "C" {
#endif

/* Writes the answer to a section file over the start of `out`, as much as it holds, and gives the whole answer's
 * length. 8,192 bytes always hold it. */
size_t pulpmitten_answer_text(const uint8_t *text, size_t text_len, uint8_t *out, size_t out_len);

/* Plans a section. Gives 0, sets every departure in train number order, and writes the best value; or gives the
 * refusal's number, writes the two places that it names, and sets no departure. What does not apply is written as 0. */
uint32_t pulpmitten_plan(uint32_t objective, uint32_t running, uint32_t headway,
                         const int32_t *one, size_t one_len,
                         const int32_t *two, size_t two_len,
                         uint32_t *departures, size_t departures_len,
                         int64_t *value, uint32_t *first, uint32_t *second);

/* Judges recorded departures, in train number order: the same numbers, and nothing else is written. */
uint32_t pulpmitten_judge(uint32_t objective, uint32_t running, uint32_t headway,
                          const int32_t *one, size_t one_len,
                          const int32_t *two, size_t two_len,
                          const uint32_t *departures, size_t departures_len,
                          int64_t *value, uint32_t *first, uint32_t *second);

#ifdef __cplusplus
}
#endif

#endif
