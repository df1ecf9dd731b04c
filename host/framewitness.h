/* The functions of libwitness.a, which `rt lib` makes in crates/witness, for Linux on x86-64.

   Each of them takes the bytes of a file and answers 0 where the question is answered, else the number of a refusal:

      1  the file ends inside a field, or a part of it is larger than the part that holds it; also: the position
      2  a box is smaller than its header; also: the position
      3  boxes lie more than 10 deep in each other; also: the position
      4  another limit is passed, such as 1,073,741,824 bytes or 4 tracks; also: the position
      5  a box that is needed is missing; also: its four letters, the first in the highest of four bytes
      6  a box is there twice that may be there once; also: the position
      7  a version is not known; also: the position
      8  a value is not allowed; also: the position
      9  a sum or a product does not fit; also: 0
     10  the file has fragments and also samples outside of them; also: 0
     11  there is no such sample; also: its number
     12  out is too small; also: what is needed

   A position is the number of bytes before the fault. `*also` is written with every answer. On a refusal every word of
   out is as it was; on an answer the words behind it are. Nothing else is written, nothing is kept between calls, and
   threads may call at the same time.

   The caller sees to it that
   - file points to `length` bytes that nobody changes meanwhile, out to `room` words, and also to one word;
   - no pointer is NULL, not even with a length of 0; out and also are aligned to 8 bytes;
   - the three lie apart from each other;
   - 1 MiB of the stack is left. */
#ifndef FRAMEWITNESS_H
#define FRAMEWITNESS_H

#include <stddef.h>
#include <stdint.h>

#ifdef __cplusplus
extern "C" {
#endif

/* Audits a file, and writes four words. also 0: it is clean; the words are the numbers of its tracks, its samples and its
   media bytes, and 0. also 1 to 8: it is not, and this is the number of the finding, F1 to F8; the words are the track, the
   sample, the position and the gap (signed, in two's complement), each 0 where the finding does not use it.
   12: also is 4. */
uint32_t framewitness_audit(const uint8_t *file, size_t length, uint64_t *out, size_t room, uint64_t *also);

/* Tells the number of the track at `place` in the moov box (the first is 0). also: the number. 5 with `trak`: there is no
   such track.
   This and the following three ask 1 to 8 of the whole file, and 9 of what they tell. The audit asks everything, so it
   comes first. */
uint32_t framewitness_track(const uint8_t *file, size_t length, size_t place, uint64_t *also);

/* Lists the samples of the track at `place`, seven words for each: its number, its offset in the file, its size, its time, its
   duration, its composition offset (signed, in two's complement), and 1 where it is a sync sample, else 0. also: how many
   samples. 12: also is how many there are, and seven words are needed for each. */
uint32_t framewitness_list(const uint8_t *file, size_t length, size_t place, uint64_t *out, size_t room, uint64_t *also);

/* Tells one sample of that track by its number (the first is 1), in the same seven words. also 1. 11: there is no such
   sample. 12: also is 1. */
uint32_t framewitness_sample(const uint8_t *file, size_t length, size_t place, uint32_t number, uint64_t *out, size_t room, uint64_t *also);

/* Tells twelve words about that track: its number; its handler and the type of its first sample entry (four letters each; 0
   where there is no entry); its timescale; its duration in units of that and in microseconds; the number of its samples
   and their bytes; whole frames to a second; its width and its height (in 65,536ths); its language (three letters of 5
   bits, each less 0x60). also 12. 9: the microseconds do not fit. 12: also is 12. */
uint32_t framewitness_summary(const uint8_t *file, size_t length, size_t place, uint64_t *out, size_t room, uint64_t *also);

#ifdef __cplusplus
}
#endif

#endif
