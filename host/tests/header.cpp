// Compiled only. C++ takes the header, twice too, and the functions keep their C names: had the header not declared
// them so, the declarations below would contradict it.
#include "abezolit.h"
#include "abezolit.h"

extern "C" {
abz_answer abz_radpk(const uint8_t *, size_t);
size_t abz_radup(size_t, uint8_t *, size_t);
abz_answer abz_d2bin(const uint8_t *, size_t);
size_t abz_bin2d(size_t, uint8_t *, size_t);
abz_answer abz_o2bin(const uint8_t *, size_t);
size_t abz_bin2o(size_t, uint8_t *, size_t);

size_t abz_format(uint8_t *, size_t, size_t, size_t, size_t, const uint8_t *, size_t);
abz_look_answer abz_look(const uint8_t *, size_t, size_t, size_t, size_t, size_t, size_t);
abz_owner_answer abz_owner(const uint8_t *, size_t, size_t);
abz_report_answer abz_report(const uint8_t *, size_t);
size_t abz_to_form2(const uint8_t *, size_t, uint8_t *, size_t);
size_t abz_to_form1(const uint8_t *, size_t, uint8_t *, size_t);
size_t abz_openi(uint8_t *, size_t, size_t, size_t, size_t, size_t, size_t);
size_t abz_openu(uint8_t *, size_t, size_t, size_t, size_t, size_t, size_t);
size_t abz_opene(uint8_t *, size_t, size_t, size_t, size_t, size_t, size_t);
size_t abz_close(uint8_t *, size_t, size_t, size_t, size_t, size_t, size_t, size_t);
size_t abz_delet(uint8_t *, size_t, size_t, size_t, size_t, size_t, size_t);
size_t abz_keep(uint8_t *, size_t, size_t, size_t, size_t, size_t, size_t);
size_t abz_renam(uint8_t *, size_t, size_t, size_t, size_t, size_t, size_t, size_t, size_t, size_t, size_t);
size_t abz_appnd(uint8_t *, size_t, size_t, size_t, size_t, size_t, size_t, size_t, size_t, size_t, size_t);
size_t abz_block_in(const uint8_t *, size_t, size_t, size_t, size_t, size_t, size_t, size_t, uint8_t *, size_t);
size_t abz_block_out(uint8_t *, size_t, size_t, size_t, size_t, size_t, size_t, size_t, const uint8_t *, size_t);
size_t abz_linked_read(const uint8_t *, size_t, size_t, size_t, size_t, size_t, size_t, size_t, uint8_t *, size_t);
abz_answer abz_linked_add(uint8_t *, size_t, size_t, size_t, size_t, size_t, size_t, const uint8_t *, size_t);
abz_read_answer abz_line_read(const uint8_t *, size_t, size_t, size_t, size_t, size_t, size_t, size_t, size_t,
                              uint8_t *, size_t);
abz_write_answer abz_line_write(uint8_t *, size_t, size_t, size_t, size_t, size_t, size_t, size_t, const uint8_t *,
                                size_t, uint8_t *, size_t, size_t);
size_t abz_line_end(uint8_t *, size_t, size_t, size_t, size_t, size_t, size_t, uint8_t *, size_t, size_t);
abz_binary_answer abz_binary_read(const uint8_t *, size_t, size_t, size_t, size_t, size_t, size_t, size_t, size_t, size_t,
                                  size_t, uint8_t *, size_t);
abz_write_answer abz_binary_write(uint8_t *, size_t, size_t, size_t, size_t, size_t, size_t, const uint8_t *, size_t,
                                  uint8_t *, size_t, size_t);
abz_answer abz_finish(uint8_t *, size_t, size_t);
abz_answer abz_alloc(uint8_t *, size_t, size_t, size_t, size_t, size_t, size_t, size_t, size_t);
size_t abz_openo(uint8_t *, size_t, size_t, size_t, size_t, size_t, size_t, size_t);
size_t abz_many(uint8_t *, size_t, const uint8_t *, size_t, uint8_t *, size_t);

abz_answer abz_csi1(const uint8_t *, size_t, uint8_t *, size_t);
abz_specification abz_csi2(const uint8_t *, size_t, size_t, size_t, uint8_t *, size_t);
abz_answer abz_csi_write(size_t, size_t, const uint8_t *, size_t, uint8_t *, size_t);
}

bool taken(const uint8_t *chars, size_t chars_len)
{
    return abz_radpk(chars, chars_len).code == ABZ_OK;
}
