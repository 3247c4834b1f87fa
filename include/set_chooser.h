/* The set chooser: a sheet of parts and limits in, the listing of the best set out.
 *
 * docs/SHEETS.md has the bytes of sheets and listings, docs/REFUSALS.md the faults that a listing may name.
 */
#ifndef SET_CHOOSER_H
#define SET_CHOOSER_H

#include <stddef.h>
#include <stdint.h>

#ifdef __cplusplus
extern "C" {
#endif

/* Reads the sheet and writes its listing to the start of `out`.
 *
 * sheet, sheet_len   the bytes of the sheet; it is only read
 * out, out_len       where the listing goes; bytes past the listing are left as they were
 *
 * Returns the number of bytes written: a listing that begins "goal", "nothing fits" or "fault".
 * Returns -13 if `out` is too short for the whole listing; `out` is then untouched.
 * There is no other answer. A listing has at most 1,043 bytes, so an `out` of that size is never too short.
 *
 * The two ranges must not overlap. A length of 0 is allowed; the pointer must still not be null.
 * It works with 1,024 node places and 1,024 rows: a sheet that needs more nodes is listed as fault 15.
 * It uses no heap and keeps nothing between calls, so calls from several threads at once are safe as long as
 * their `out` ranges differ. It needs about 350 KiB of stack (measured on x86-64).
 */
int64_t set_chooser_list(const uint8_t *sheet, size_t sheet_len, uint8_t *out, size_t out_len);

#ifdef __cplusplus
}
#endif

#endif
