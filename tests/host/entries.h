/* The entries for saved plans as they were agreed. Where include/screen.h has them too, the compiler sees that both say the same. */
#include "../../include/screen.h"

uint64_t screen_load(const uint8_t *file, size_t file_len, const uint8_t *sheet, size_t sheet_len, uint8_t *area, size_t area_len);
uint64_t screen_save(const uint8_t *sheet, size_t sheet_len, uint8_t *area, size_t area_len);
uint64_t screen_save_on(const uint8_t *file, size_t file_len, const uint8_t *sheet, size_t sheet_len, uint8_t *area, size_t area_len);
