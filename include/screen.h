/* The drawing screen's entries to Molzaken: run a sheet of lines and put the answers into a buffer; save the plan of a sheet, load it again.
 *
 * Link with libscreen.a (`rt lib` in crates/screen writes it to crates/screen/out). A call keeps no memory, reads and writes nothing but
 * the buffers that it is lent, and may be made from several threads at once. It needs less than 80 KB of stack
 * (a host with a limit of 60 KB ran, one with 40 KB did not).
 */
#ifndef MOLZAKEN_SCREEN_H
#define MOLZAKEN_SCREEN_H

#include <stddef.h>
#include <stdint.h>

#ifdef __cplusplus
extern "C" {
#endif

/* A longer sheet is answered by `no 52` alone. */
#define SCREEN_SHEET_LIMIT 65536

/* Runs the sheet from a blank plan. Each line is answered by one line, `ok` and the numbers given or `no` and the refusal, ended by a
 * line feed. An answer goes into the area whole, behind the one before. The first that does not fit ends the run: it and later ones
 * are not written, and the rest of the area is untouched.
 *
 * sheet      the sheet's bytes; lines end in a line feed, the last one may lack it
 * sheet_len  how many; any number, and 0 gives nothing
 * area       where the answers go; it must not overlap the sheet. Neither pointer may be null, whatever the length
 * area_len   how many bytes may be written
 *
 * Gives back twice the number of bytes written, plus 1 if the run ended because an answer did not fit.
 */
uint64_t screen_run(const uint8_t *sheet, size_t sheet_len, uint8_t *area, size_t area_len);

#define SCREEN_WRITTEN(result) ((size_t)((result) / 2))
#define SCREEN_ENDED(result) ((int)((result) % 2))

/* A saved plan is made of slots, one for each measure and each rule and one in front of them. */
#define SCREEN_SLOT 16
#define SCREEN_FILE_LIMIT (97 * SCREEN_SLOT)

/* The next three entries give back one number with two parts: the refusal, 0 if there was none, and the value, which is 0 where there was
 * one. A refusal leaves the area untouched. Buffers must not overlap, and no pointer may be null, whatever the length.
 */
#define SCREEN_REFUSAL(result) ((int)((result) % 256))
#define SCREEN_VALUE(result) ((result) / 256)

/* Loads a saved plan, then runs the sheet on it as screen_run does on a blank one.
 *
 * file       the saved plan's bytes
 * file_len   how many; any number
 *
 * The value is the number that screen_run gives, so SCREEN_WRITTEN and SCREEN_ENDED are of SCREEN_VALUE(result).
 * Refusals: 44 the length is wrong, 45 the bytes do not add up, 46 the slots do not fit together, then 11 to 17 as if the plan were drawn
 * by hand. A sheet that is too long is none: it is answered by `no 52`, as by screen_run.
 */
uint64_t screen_load(const uint8_t *file, size_t file_len, const uint8_t *sheet, size_t sheet_len, uint8_t *area, size_t area_len);

/* Saves the plan that the sheet's lines leave, from a blank plan; what they are answered is dropped. SCREEN_FILE_LIMIT bytes are always
 * enough, and the rest of the area is untouched.
 *
 * The value is the number of bytes written.
 * Refusals: 52 the sheet is too long, 31 the plan that it leaves is not whole, 41 the area is too short for the file.
 */
uint64_t screen_save(const uint8_t *sheet, size_t sheet_len, uint8_t *area, size_t area_len);

/* The same from the plan loaded from the file. The refusals of screen_load come first. */
uint64_t screen_save_on(const uint8_t *file, size_t file_len, const uint8_t *sheet, size_t sheet_len, uint8_t *area, size_t area_len);

#ifdef __cplusplus
}
#endif

#endif
