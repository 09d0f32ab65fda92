/* Host code, not proved: the declaration of the proved call of crate `jobtext`.
   Where a line of a job ends. `tools/archives jobtext` proves it and writes target/staticlib/libjobtext.a;
   hosts/line_end_example.c shows its use, docs/JOB.md says what the lines of a job are. What the call promises
   is jobtext/specs/Text.antt, `line-end`. */
#ifndef LINE_END_H
#define LINE_END_H

#include <stddef.h>
#include <stdint.h>

#ifdef __cplusplus
extern "C" {
#endif

/* Returns the place of the first byte 10 at or after `from`, counted from the job's first byte; or `job_count`
   where there is none, or where `from` lies past the bytes. The job is a pointer and a count of bytes, any bytes
   and any count of them; the pointer is not null, also where the count is 0. Nothing is refused and nothing is
   written. Nothing is kept between calls, and calls may run at the same time.

   The first line of a job starts at 0, and the next one starts one further than the place where a line ends; what
   stands after the last byte 10 is no line.

   The call takes no more stack than any call of a function. */
size_t job_line_end(const uint8_t *job, size_t job_count, size_t from);

#ifdef __cplusplus
}
#endif

#endif
