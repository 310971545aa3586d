/* Entries of vault.h written in plain C: what bench/times.c compares with. plain_ goes the shortest way, and keeps no numbers of lines; tables_ takes the
   library's steps: it works them out from what was read, tests and changes them, and tells and writes from them. */
#include "vault.h"

struct vault_reply plain_receive(const uint8_t *sheet, size_t n, uint64_t c, uint64_t seconds, uint8_t *out, size_t room);
struct vault_reply plain_copy(const uint8_t *sheet, size_t n, uint8_t *out, size_t room);
struct vault_reply plain_list(const uint8_t *sheet, size_t n, uint8_t *list, size_t room);
struct vault_reply plain_class_size(const uint8_t *sheet, size_t n);
struct vault_reply plain_total(const uint8_t *sheet, size_t n);
struct vault_verdict plain_check_list(const uint8_t *sheet, size_t n, const uint8_t *list, size_t lines);
struct vault_reply plain_read_pla(const void *text, size_t n, uint8_t *out, size_t room);
struct vault_reply plain_write_pla(const uint8_t *sheet, size_t n, void *out, size_t room);

struct vault_reply tables_receive(const uint8_t *sheet, size_t n, uint64_t c, uint64_t seconds, uint8_t *out, size_t room);
struct vault_reply tables_copy(const uint8_t *sheet, size_t n, uint8_t *out, size_t room);
struct vault_reply tables_list(const uint8_t *sheet, size_t n, uint8_t *list, size_t room);
struct vault_reply tables_class_size(const uint8_t *sheet, size_t n);
struct vault_reply tables_total(const uint8_t *sheet, size_t n);
struct vault_verdict tables_check_list(const uint8_t *sheet, size_t n, const uint8_t *list, size_t lines);
struct vault_reply tables_read_pla(const void *text, size_t n, uint8_t *out, size_t room);
struct vault_reply tables_write_pla(const uint8_t *sheet, size_t n, void *out, size_t room);
