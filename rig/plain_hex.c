#include "plain_hex.h"

enum { ACCEPTED = 0, BAD_LENGTH = 21, NO_DIGIT = 22, SHORT_ROOM = 23 };
enum { DIGITS = 8, BYTES = 4 };

/* -1 for a character that is no digit. */
static int digit_value(uint8_t character)
{
    if (character >= '0' && character <= '9')
        return character - '0';
    if (character >= 'A' && character <= 'F')
        return character - 'A' + 10;
    if (character >= 'a' && character <= 'f')
        return character - 'a' + 10;
    return -1;
}

uint8_t plain_hex_read(const uint8_t *text, size_t text_len, uint8_t *image, size_t image_len)
{
    size_t words = text_len / DIGITS;

    if (text_len % DIGITS != 0)
        return BAD_LENGTH;
    for (size_t index = 0; index < text_len; index++)
        if (digit_value(text[index]) < 0)
            return NO_DIGIT;
    if (image_len / BYTES < words)
        return SHORT_ROOM;
    for (; words > 0; words--, image += BYTES) {
        uint32_t word = 0;

        for (unsigned digit = 0; digit < DIGITS; digit++)
            word = word << 4 | (uint32_t)digit_value(*text++);
        for (unsigned byte = 0; byte < BYTES; byte++)
            image[byte] = (uint8_t)(word >> (8 * byte));
    }
    return ACCEPTED;
}

uint8_t plain_hex_write(const uint8_t *image, size_t image_len, uint8_t *text, size_t text_len)
{
    size_t words = image_len / BYTES;

    if (image_len % BYTES != 0)
        return BAD_LENGTH;
    if (text_len / DIGITS < words)
        return SHORT_ROOM;
    for (; words > 0; words--, image += BYTES) {
        uint32_t word = 0;

        for (unsigned byte = 0; byte < BYTES; byte++)
            word |= (uint32_t)image[byte] << (8 * byte);
        for (unsigned digit = 0; digit < DIGITS; digit++)
            *text++ = (uint8_t)"0123456789ABCDEF"[word >> (28 - 4 * digit) & 15];
    }
    return ACCEPTED;
}
