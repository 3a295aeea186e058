/* The bench entries of the proved loader of boot scripts: whole sessions and runs, scripts as text, the register of
   option fields, and the host on the other end of the line.

   Those of sessions and runs take the map as bytes: 12 for each window, its first address, length and rights as
   little-endian words. Each of them takes the memory: the bytes of all windows, one window after another.
   No pointer is null, also where its length is 0, and no two of the stretches overlap. */
#ifndef AIS_H
#define AIS_H

#include <stddef.h>
#include <stdint.h>

#ifdef __cplusplus
extern "C" {
#endif

/* Runs one whole session of sent mode: opens it on the map and feeds it n bytes, one at a time.
   The value is the first refusal, or 0, times 2^32, plus the count of reply bytes. The replies
   stand at the beginning of the room in their order, the six letters BOOTME first; the rest of
   the room is left alone. The room needs 6 + 2 * n bytes, and n is at most 65,536.
   Refused before the first byte, with count 0 and nothing changed: 1 for a bad map, 2 for memory
   whose length is not the map's sum, 19 for n or the room, in this order. */
uint64_t ais_sent_session(const uint8_t *map, size_t map_len, uint8_t *memory, size_t memory_len,
                          const uint8_t *fed, size_t n, uint8_t *room, size_t room_len);

/* The same on the 16-bit line: fed_len bytes are n halves, the low byte of each first, and a start
   half is answered by a half, low byte first too. There is no greeting. The room needs 4 * n bytes,
   n is at most 65,536, and 19 is also for an odd fed_len. The count is of reply bytes. */
uint64_t ais_half_session(const uint8_t *map, size_t map_len, uint8_t *memory, size_t memory_len,
                          const uint8_t *fed, size_t fed_len, uint8_t *room, size_t room_len);

/* Runs one image in flash mode, from its opening to the end of the session, with at most `limit`
   retries. The value is refusal * 2^56 + retries * 2^48 + (offset of the last command / 4) * 2^32
   + the checksum register. Refusal 0 says that the script entered its program. With refusals 1 to 4
   nothing was run, and the other three parts are 0. */
uint64_t ais_flash_run(const uint8_t *map, size_t map_len, uint8_t *memory, size_t memory_len,
                       const uint8_t *image, size_t image_len, uint8_t limit);

/* The same session in the dialect of the DM648 boards, on either line: line 0 is by bytes, as ais_sent_session,
   and line 1 by halves, as ais_half_session; any other is 19 before anything else is looked at. Jump & Close has
   two more words, the sections and the bytes that should have been loaded. A load or fill is a section, a
   Start-Over takes back those of its attempt, and where a word differs from the total it is refused with 17,
   after 10. On entering, the four letters DONE are replied. A load or fill that would take a total past
   2^32 - 1 is 18, after 7; what one session can be fed never comes to that. */
uint64_t ais_dm648_session(uint8_t line, const uint8_t *map, size_t map_len, uint8_t *memory, size_t memory_len,
                           const uint8_t *fed, size_t fed_len, uint8_t *room, size_t room_len);

/* The same run as ais_flash_run in the dialect of the DM648 boards: 17 and 18 as above, and a seek takes the
   sections back that were loaded since the last Enable, or the last Request that matched. */
uint64_t ais_dm648_run(const uint8_t *map, size_t map_len, uint8_t *memory, size_t memory_len,
                       const uint8_t *image, size_t image_len, uint8_t limit);

/* A sent session, on line 0 (bytes) or 1 (halves) and in dialect 0 (AM17xx) or 1 (DM648), that also tells which
   command wrote each bit of the words chosen last. Those are at most 64 addresses, little-endian words; each is a multiple
   of 4, lies wholly in one window with the set right, and stands there once. The numbers are 64 bytes for each, in the same
   order: 16 bits for each bit of the word, bit 0 first, little-endian. They are cleared at the beginning. 0 says that no
   command has written the bit. Accepted loads, fills and settings are numbered from 1; where a Start-Over takes the
   totals of a DM648 back, the next number goes back with them, in either dialect, while the bits keep the number that
   they were written by.
   Refused before the first unit, with count 0 and nothing changed: 19 for a line or a dialect that there is not, 1 for
   the map, 24 for the chosen words (also bytes that are no whole words), 2 for a length of the memory or of the numbers,
   19 as in the other sessions, in this order. Then as these; and a command whose number would be 65,536 is refused with
   25, behind all its other refusals, which what one session can be fed never comes to. */
uint64_t ais_bits_session(uint8_t line, uint8_t dialect, const uint8_t *map, size_t map_len, const uint8_t *chosen,
                          size_t chosen_len, uint8_t *memory, size_t memory_len, uint8_t *numbers, size_t numbers_len,
                          const uint8_t *fed, size_t fed_len, uint8_t *room, size_t room_len);

/* The same of a flash run. Refused before the first command, with the other parts 0 and nothing changed: 19 for a
   dialect that there is not, 1, 24, 3, 4, 2, in this order. Then as ais_flash_run and ais_dm648_run, and 25 as above. */
uint64_t ais_bits_run(uint8_t dialect, const uint8_t *map, size_t map_len, const uint8_t *chosen, size_t chosen_len,
                      uint8_t *memory, size_t memory_len, uint8_t *numbers, size_t numbers_len, const uint8_t *image,
                      size_t image_len, uint8_t limit);

/* The same run as ais_flash_run: refusal * 2^32 + words fetched since the opening. The memory is left as
   that run leaves it. The first word of the image counts, and a word that is read again counts again.
   Never more words than (limit + 1) * (image_len / 4) are fetched. */
uint64_t ais_flash_fetched(const uint8_t *map, size_t map_len, uint8_t *memory, size_t memory_len,
                           const uint8_t *image, size_t image_len, uint8_t limit);

/* Reads a text of hexadecimal digits, eight a word and the highest first, into an image of
   little-endian words. Digits are of either letter case. The value is 0 or the refusal: 21 for a text
   whose length is no multiple of 8, 22 for a character that is no digit, 23 for an image shorter
   than half of the text, in this order. */
uint8_t ais_hex_read(const uint8_t *text, size_t text_len, uint8_t *image, size_t image_len);

/* Writes an image out as such a text, in capitals. The value is 0 or the refusal: 21 for an image
   whose length is no multiple of 4, 23 for a text shorter than twice the image, in this order.
   In both, a refusal leaves all of the output as it was, and what lies past the result stays. */
uint8_t ais_hex_write(const uint8_t *image, size_t image_len, uint8_t *text, size_t text_len);

/* The register of option fields. Each call is lent its text and reads it anew.

   Reads a text. The value is the refusal times 2^32 plus the number of the refused line, counted from 1: 26 for a line that is malformed or beyond
   the 200th, 27 for one that clashes with an earlier line. Of a good text it is the count of lines. */
uint64_t ais_register_read(const uint8_t *text, size_t text_len);

/* Which field a bit of a word is in a release, and since when. The value is the field's first release, and name[0..15] has its name with zeros behind
   it. Refused, with nothing changed: 23 for a room below 16 bytes, 26 or 27 with its line as above, 28 where no field has the bit in that release,
   in this order; but for 26 and 27 the line is 0. What lies past 16 bytes is left alone. */
uint64_t ais_register_bit(const uint8_t *text, size_t text_len, uint32_t word, uint32_t bit, uint32_t release, uint8_t *name, size_t name_len);

/* The one Boot Table command that sets a field, by its name in a release, to a value. The value is 0, and command[0..19] has the five words,
   little-endian: opcode, type word, address, data, delay. Refused, with nothing changed: 23 for a room below 20 bytes, 26 or 27 with its line, 28
   where that release has no such field, 16 where the value is too wide for it, in this order. What lies past 20 bytes is left alone. */
uint64_t ais_register_command(const uint8_t *text, size_t text_len, const uint8_t *name, size_t name_len, uint32_t release, uint32_t value,
                              uint8_t *command, size_t command_len);

/* The host: the group controller's half of the line, which sends an image to a loader. It is opened, hears what comes in, and takes turns: each is one
   look at what was heard and then at most one sending. The caller owns the line, the clock and the waits, and has to let every reply be heard
   before the next turn. A host is so many bytes that the caller lends to each call; another length is 19, and nothing is changed. */
#define AIS_HOST_BYTES 41

/* Opens a host on line 0 (bytes) or 1 (halves), in dialect 0 (AM17xx) or 1 (DM648), for an image that each turn is lent again. Each of its waits allows
   so many tries, 1 to 1,000; it goes back at most `limit` times where a checksum differs; and its Ping has a count of `pings`. The value is 0 or
   the refusal: 19 for a line or a dialect that there is not, which changes nothing; 3 and 4 for the image as in ais_flash_run, 20 for the tries, in this
   order, and the host has ended then. */
uint8_t ais_host_open(uint8_t *host, size_t host_len, uint8_t line, uint8_t dialect, const uint8_t *image, size_t image_len, uint32_t tries,
                      uint8_t limit, uint32_t pings);

/* Hears one byte; on the 16-bit line a half is two, the low one first. The value is 0, or 19. */
uint8_t ais_host_hear(uint8_t *host, size_t host_len, uint8_t byte);

/* Takes a turn. The value is refusal * 2^56 + ended * 2^52 + kind * 2^48 + what goes out, `ended` being 1 where the host has ended. Kind 0 is nothing and
   1 the start unit, with 0 behind them; 2 is a word, and its value; 3 is a stretch of the image, and its length * 2^24 + its offset.
   14 where the host had ended and 3 for a length of the image that is not the opening's leave the host as it was. 5, 6 and 15 as in ais_flash_run, where
   the next command is met; 11 and 12 at a Request; and 20 where the tries of a wait are spent or an echo differs: these end the host, and nothing goes
   out. Without a refusal an AM17xx host has ended when the words of its close go out, and a DM648 host when it has heard DONE. */
uint64_t ais_host_turn(uint8_t *host, size_t host_len, const uint8_t *image, size_t image_len);

/* Runs a whole exchange between a host and a freshly opened loader, on which no byte is lost: the greeting is heard before the first turn and every reply
   before the next one, until the host has ended. The value is the refusal * 2^56 + the retries * 2^48 + the loader's first refusal but 14, or 0, * 2^40
   + 2^32 where the loader entered + the entry address, 0 where it did not. The refusal is 19 for a line or a dialect that there is not, 1, 2, or
   the host's own, in this order; of all but the host's in a turn the other parts are 0 and nothing is changed. The memory is left as the loader left it. */
uint64_t ais_host_session(uint8_t line, uint8_t dialect, const uint8_t *map, size_t map_len, uint8_t *memory, size_t memory_len, const uint8_t *image,
                          size_t image_len, uint32_t tries, uint8_t limit, uint32_t pings);

/* The same run as ais_flash_run (dialect 0) or ais_dm648_run (1), and its events: each as two little-endian words in the room, its kind (1 a wait, 3 the
   entry) and its value (the cycles, the address), one after the other from the front. The value is refusal * 2^56 + the count of events. 19 for a dialect
   that there is not; 23 for a room below 8 * ((limit + 1) * (image_len / 20) + 1) bytes, image_len counted up to 65,536: nothing is changed then. Else the
   refusal is the run's. */
uint64_t ais_flash_events(uint8_t dialect, const uint8_t *map, size_t map_len, uint8_t *memory, size_t memory_len, const uint8_t *image, size_t image_len,
                          uint8_t limit, uint8_t *room, size_t room_len);

/* The same of an exchange, as ais_host_session: 19 for a line or a dialect, 23 for the room, then 1, 2 or the host's own; with 19, 23, 1 and 2 nothing is
   changed. The events are the loader's. */
uint64_t ais_host_events(uint8_t line, uint8_t dialect, const uint8_t *map, size_t map_len, uint8_t *memory, size_t memory_len, const uint8_t *image,
                         size_t image_len, uint32_t tries, uint8_t limit, uint32_t pings, uint8_t *room, size_t room_len);

#ifdef __cplusplus
}
#endif

#endif
