/* A loader of boot scripts in plain C, written from the paper alone, to be run beside the proved one. */
#ifndef PLAIN_LOADER_H
#define PLAIN_LOADER_H

#include <stddef.h>
#include <stdint.h>

enum { PLAIN_BYTES, PLAIN_HALVES, PLAIN_FLASH, PLAIN_MODES }; /* sent by bytes, sent by halves, flash */
enum { PLAIN_AM17XX, PLAIN_DM648, PLAIN_DIALECTS };
enum { PLAIN_JUMP_AND_CLOSE = 4, PLAIN_COMMANDS = 10 };

typedef uint64_t plain_counts[PLAIN_DIALECTS][PLAIN_MODES][PLAIN_COMMANDS];

/* How many commands of each kind were accepted so far in each dialect and mode, and what all of these are called. */
extern plain_counts plain_accepted;
extern plain_counts plain_accepted_over_seam; /* those whose range lies in several windows */
const char *plain_dialect_name(unsigned dialect);
const char *plain_mode_name(unsigned mode);
const char *plain_command_name(unsigned kind);

/* How many words the last flash run fetched from its image, its first word included. */
extern uint32_t plain_fetched;

/* Whether a mode allows a kind at all. */
int plain_command_allowed(unsigned mode, unsigned kind);

/* Whether a kind writes a range of memory: Load, Fill and Boot Table. */
int plain_command_writes(unsigned kind);

/* The same calls, with the same answers, as those in ais.h whose names begin with ais_ and end like these. */
uint64_t plain_sent_session(const uint8_t *map, size_t map_length, uint8_t *memory, size_t memory_length,
                            const uint8_t *fed, size_t fed_length, uint8_t *room, size_t room_length);
uint64_t plain_half_session(const uint8_t *map, size_t map_length, uint8_t *memory, size_t memory_length,
                            const uint8_t *fed, size_t fed_length, uint8_t *room, size_t room_length);
uint64_t plain_flash_run(const uint8_t *map, size_t map_length, uint8_t *memory, size_t memory_length,
                         const uint8_t *image, size_t image_length, uint8_t limit);
uint64_t plain_dm648_session(uint8_t line, const uint8_t *map, size_t map_length, uint8_t *memory, size_t memory_length,
                             const uint8_t *fed, size_t fed_length, uint8_t *room, size_t room_length);
uint64_t plain_dm648_run(const uint8_t *map, size_t map_length, uint8_t *memory, size_t memory_length,
                         const uint8_t *image, size_t image_length, uint8_t limit);
uint64_t plain_bits_session(uint8_t line, uint8_t dialect, const uint8_t *map, size_t map_length, const uint8_t *chosen,
                            size_t chosen_length, uint8_t *memory, size_t memory_length, uint8_t *numbers,
                            size_t numbers_length, const uint8_t *fed, size_t fed_length, uint8_t *room,
                            size_t room_length);
uint64_t plain_bits_run(uint8_t dialect, const uint8_t *map, size_t map_length, const uint8_t *chosen,
                        size_t chosen_length, uint8_t *memory, size_t memory_length, uint8_t *numbers,
                        size_t numbers_length, const uint8_t *image, size_t image_length, uint8_t limit);

uint64_t plain_flash_events(uint8_t dialect, const uint8_t *map, size_t map_length, uint8_t *memory, size_t memory_length,
                            const uint8_t *image, size_t image_length, uint8_t limit, uint8_t *room, size_t room_length);

/* The events so far, in order, each as two words in the room, and the bytes of room that those of an image may need. */
struct plain_events {
    uint8_t *room;
    size_t length;
    uint32_t count;
};
size_t plain_events_room(size_t image_length, uint8_t limit);

/* A session of sent mode, unit by unit, for a host on the other end of the line. The opening is refused with 1 or 2, and there
   is none then. A unit is lent as its bytes, and its reply goes to a room of eight; the count is given back. */
typedef struct sent_session plain_session;
plain_session *plain_session_open(uint8_t line, uint8_t dialect, const uint8_t *map, size_t map_length, uint8_t *memory,
                                  size_t memory_length, uint8_t *refusal);
void plain_session_tell(plain_session *session, struct plain_events *events); /* tells its events from now on */
unsigned plain_session_feed(plain_session *session, const uint8_t *unit, uint8_t *room, uint8_t *refusal);
int plain_session_entered(const plain_session *session, uint32_t *address); /* the address where it has entered */
void plain_session_end(plain_session *session);

/* The bytes of a unit, and what is sent before the first one: BOOTME on the line of bytes, nothing on the other. */
unsigned plain_unit_bytes(unsigned line);
size_t plain_greeting(unsigned line, uint8_t *room);

#endif
