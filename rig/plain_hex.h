/* Scripts as hexadecimal text, plainly: what the proved entries are compared with, and measured against. */
#ifndef PLAIN_HEX_H
#define PLAIN_HEX_H

#include <stddef.h>
#include <stdint.h>

uint8_t plain_hex_read(const uint8_t *text, size_t text_len, uint8_t *image, size_t image_len);
uint8_t plain_hex_write(const uint8_t *image, size_t image_len, uint8_t *text, size_t text_len);

#endif
