/* The inner forms of the questions, exported for the benchmark alone: of an index that was judged whole, with the starts
 * of its vectors worked out once, and of units that are there. No public call: nothing is refused but a list too short.
 */
#ifndef NGOLISHEPA_INNER_H
#define NGOLISHEPA_INNER_H

#include "ngolishepa.h"

void ngolishepa_inner_starts(const uint16_t lens[32], size_t k, uint32_t starts[66]);

bool ngolishepa_inner_needs(const uint16_t *tracks, size_t tracks_len, const uint64_t *words, size_t words_len,
                            const uint16_t *directory, size_t directory_len, const uint16_t lens[32],
                            const uint32_t starts[66], size_t k, uint16_t u, uint16_t v);

bool ngolishepa_inner_is_step(const uint16_t *tracks, size_t tracks_len, const uint64_t *words, size_t words_len,
                              const uint16_t *directory, size_t directory_len, const uint16_t lens[32],
                              const uint32_t starts[66], size_t k, uint16_t u, uint16_t v);

ngolishepa_number_answer ngolishepa_inner_needed(const uint16_t *tracks, size_t tracks_len, const uint64_t *words,
                                                 size_t words_len, const uint16_t *directory, size_t directory_len,
                                                 const uint16_t lens[32], const uint32_t starts[66], size_t k, uint16_t u,
                                                 uint16_t *list, size_t list_len, size_t place);

ngolishepa_number_answer ngolishepa_inner_needing(const uint16_t *tracks, size_t tracks_len, const uint64_t *words,
                                                  size_t words_len, const uint16_t *directory, size_t directory_len,
                                                  const uint16_t lens[32], const uint32_t starts[66], size_t k, uint16_t u,
                                                  uint16_t *list, size_t list_len, size_t place);

ngolishepa_number_answer ngolishepa_inner_steps(const uint16_t *tracks, size_t tracks_len, const uint64_t *words,
                                                size_t words_len, const uint16_t *directory, size_t directory_len,
                                                const uint16_t lens[32], const uint32_t starts[66], size_t k, uint16_t u,
                                                uint16_t *list, size_t list_len, size_t place);

ngolishepa_number_answer ngolishepa_inner_steps_up(const uint16_t *tracks, size_t tracks_len, const uint64_t *words,
                                                   size_t words_len, const uint16_t *directory, size_t directory_len,
                                                   const uint16_t lens[32], const uint32_t starts[66], size_t k,
                                                   uint16_t u, uint16_t *list, size_t list_len, size_t place);

uint16_t ngolishepa_inner_stage(const uint16_t *tracks, size_t tracks_len, const uint64_t *words, size_t words_len,
                                const uint16_t *directory, size_t directory_len, const uint16_t lens[32],
                                const uint32_t starts[66], size_t k, uint16_t u);

#endif
