/* Reading analyser messages by format sheets, for C.
 *
 * Link with crates/balskif/out/libbalskif.a, which needs memcpy, memmove and memset and nothing else. Every function is
 * proved for all inputs; what is asked of a caller is what C asks of every pointer: `n` readable bytes behind each
 * `const uint8_t *` with its length, `n` writable bytes behind each `uint8_t *`, a writable uint64_t behind `line`, what is
 * writable overlapped by no other argument, and the stack that is said below. No pointer may be null, even where its length is 0. Nothing is kept between calls, and calls
 * may be made from several threads at once.
 *
 * A sheet is the text of a format sheet, a message its bytes, of which only the first 65,535 count. docs/FORMAT.md says
 * what both look like, docs/REFUSALS.md what each number means.
 *
 * Stack: balskif_check takes up to 64 KB of it, balskif_list and balskif_put up to 400 KB where they are called with at most
 * BALSKIF_PLACES_SHORT places, and up to 3 MB with more.
 */
#ifndef BALSKIF_H
#define BALSKIF_H

#include <stddef.h>
#include <stdint.h>

#ifdef __cplusplus
extern "C" {
#endif

/* A piece list has one place for each piece of a message. One of at most BALSKIF_PLACES_SHORT places is made quickly. None
 * has more than BALSKIF_PLACES_LONG: a larger number of places counts as that one. */
#define BALSKIF_PLACES_SHORT 2048
#define BALSKIF_PLACES_LONG 16384

/* Checks a sheet. Answers 0 if it is one, with *line 0; or else the number of its first fault, 1 to 7, with its line. */
uint8_t balskif_check(const uint8_t *sheet, size_t sheet_length, uint64_t *line);

/* Lists a message by a sheet, with a piece list of so many places. The text goes to the front of `out`: the pieces and the
 * rest, or the two lines of the refusal of the sheet or of the message. What is behind the text stays as it was. Answers how
 * long it is; or 0 if it is longer than `room`, and then `out` is as it was. The text has no zero byte behind it. */
size_t balskif_list(const uint8_t *sheet, size_t sheet_length, const uint8_t *message, size_t message_length,
                    size_t places, uint8_t *out, size_t room);

/* Puts a value to the piece of a message that has the path, as `root.pts[1]`, by a sheet, with a piece list of so many
 * places. Answers 0, and the value then stands in that piece's bytes and nothing else has changed; or the number of the
 * refusal, and then no byte has changed: 1 to 7 of the sheet, 11 to 15 of the message, 22 if no piece has the path, 23 if
 * the value is not as long as the piece is wide, 24 if the message would not keep its reading. */
uint8_t balskif_put(const uint8_t *sheet, size_t sheet_length, uint8_t *message, size_t message_length, size_t places,
                    const uint8_t *path, size_t path_length, const uint8_t *value, size_t value_length);

#ifdef __cplusplus
}
#endif

#endif
