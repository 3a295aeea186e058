/* The group controller's half of the line in plain C, written from the papers alone, to be run beside the proved one. */
#ifndef PLAIN_HOST_H
#define PLAIN_HOST_H

#include <stdbool.h>
#include <stddef.h>
#include <stdint.h>

/* What the host waits for. In PLAIN_NO_WAIT it waits for nothing, and meets the next command at its next turn. */
enum plain_wait {
    PLAIN_GREETING,
    PLAIN_START,
    PLAIN_PING,
    PLAIN_ECHO,
    PLAIN_NO_WAIT,
    PLAIN_OPCODE,
    PLAIN_OVER,
    PLAIN_CLOSING,
    PLAIN_WAITS
};

enum { PLAIN_EAR = 8, PLAIN_WORD_BYTES = 4 };

struct plain_host {
    uint8_t line;
    uint8_t dialect;
    uint8_t limit;
    uint8_t retries;
    bool has_ended;
    size_t image_length;
    uint32_t tries;
    uint32_t pings;
    uint32_t offset; /* of the command that is met next, or whose opcode is out */
    enum plain_wait wait;
    uint32_t spent;   /* tries, in this wait */
    unsigned command; /* whose opcode is out, by its place in the list of commands */
    uint32_t end;     /* of that command */
    uint32_t echo;    /* how many of Ping's words came back before this one, the count not among them */
    uint32_t sought;  /* the offset after a Start-Over */
    uint8_t heard[PLAIN_EAR]; /* in this wait, the newest last; zeros where none came */
    uint8_t heard_count;      /* at most as many */
    bool has_news;            /* one of them came since the last turn */
};

enum plain_sending { PLAIN_SENDS_NOTHING, PLAIN_SENDS_START_UNIT, PLAIN_SENDS_WORD, PLAIN_SENDS_STRETCH };

/* The answer of a turn: a refusal, or what goes out. */
struct plain_turn {
    uint8_t refusal;
    enum plain_sending sending;
    uint32_t word;
    uint32_t offset; /* of a stretch of the image, and its length */
    uint32_t length;
};

/* Opens a host on a line and in a dialect that there is, as ais_host_open does. */
uint8_t plain_host_open(struct plain_host *host, uint8_t line, uint8_t dialect, const uint8_t *image, size_t image_length,
                        uint32_t tries, uint8_t limit, uint32_t pings);
void plain_host_hear(struct plain_host *host, uint8_t byte);
struct plain_turn plain_host_turn(struct plain_host *host, const uint8_t *image, size_t image_length);

/* The bytes that go out, a word's or a start unit's in the room of four. */
const uint8_t *plain_host_sent(unsigned line, const struct plain_turn *turn, const uint8_t *image, uint8_t *room,
                               size_t *length);

/* What went over the line one way. The length counts on where there is no room for more. */
enum { PLAIN_STREAM_ROOM = 6 + 2 * 131072 };
struct plain_stream {
    uint8_t bytes[PLAIN_STREAM_ROOM];
    size_t length;
};
void plain_stream_add(struct plain_stream *stream, const uint8_t *bytes, size_t length);

/* The same call, with the same answer, as ais_host_session, between a plain host and a plain loader. Both streams are cleared
   at the beginning. */
uint64_t plain_host_session(uint8_t line, uint8_t dialect, const uint8_t *map, size_t map_length, uint8_t *memory,
                            size_t memory_length, const uint8_t *image, size_t image_length, uint32_t tries, uint8_t limit,
                            uint32_t pings, struct plain_stream *sent, struct plain_stream *replied);

/* The same call, with the same answer, as ais_host_events. */
uint64_t plain_host_events(uint8_t line, uint8_t dialect, const uint8_t *map, size_t map_length, uint8_t *memory,
                           size_t memory_length, const uint8_t *image, size_t image_length, uint32_t tries, uint8_t limit,
                           uint32_t pings, uint8_t *room, size_t room_length);

#endif
