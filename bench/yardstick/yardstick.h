/* A C core with the board's interface, built twice from one source: what a step and a run may cost. And what counting
   by page may. */

#ifndef YARDSTICK_H
#define YARDSTICK_H

#include <stddef.h>
#include <stdint.h>

/* They answer as the functions of wankitare.h do. Nothing that is lent overlaps. */

/* The plain build: one step and one run for all parts. */
uint64_t yardstick_step(uint8_t *record, size_t record_len, uint8_t *image, size_t image_len,
                        uint8_t lines, uint8_t pins, uint8_t *accesses, size_t accesses_len);
uint64_t yardstick_run(uint8_t *record, size_t record_len, uint8_t *image, size_t image_len,
                       const uint8_t *script, size_t script_len, uint8_t *accesses, size_t accesses_len,
                       uint64_t *steps, uint64_t *listed);

/* Built with PER_PART: a step and a run for each part. */
uint64_t per_part_step(uint8_t *record, size_t record_len, uint8_t *image, size_t image_len,
                       uint8_t lines, uint8_t pins, uint8_t *accesses, size_t accesses_len);
uint64_t per_part_run(uint8_t *record, size_t record_len, uint8_t *image, size_t image_len,
                      const uint8_t *script, size_t script_len, uint8_t *accesses, size_t accesses_len,
                      uint64_t *steps, uint64_t *listed);

/* Counts by page as a programmer would: all records are judged, then all counts added up, then the list is counted. */
uint64_t yardstick_pages(uint64_t *reads, uint64_t *writes, const uint8_t *accesses, size_t accesses_len);

/* The last of these loops alone, which refuses nothing: what is left to gain. */
uint64_t bare_pages(uint64_t *reads, uint64_t *writes, const uint8_t *accesses, size_t accesses_len);

#endif
