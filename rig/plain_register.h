/* A plain register of option fields, written from the paper. It is what the proved one is compared with. */
#ifndef PLAIN_REGISTER_H
#define PLAIN_REGISTER_H

#include <stddef.h>
#include <stdint.h>

uint64_t plain_register_read(const uint8_t *text, size_t text_len);
uint64_t plain_register_bit(const uint8_t *text, size_t text_len, uint32_t word, uint32_t bit, uint32_t release, uint8_t *name, size_t name_len);
uint64_t plain_register_command(const uint8_t *text, size_t text_len, const uint8_t *name, size_t name_len, uint32_t release, uint32_t value,
                                uint8_t *command, size_t command_len);

#endif
