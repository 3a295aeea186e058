/* A host in plain C, written from the papers alone. No code is shared with the proved one. Afterwards four points that the papers leave open were
   set here as docs/DECISIONS.md has them, by somebody who knew the proved rules. */
#include "plain_host.h"

#include "plain_loader.h"

#include <string.h>

enum refusal {
    ACCEPTED = 0,
    IMAGE_LENGTH_WRONG = 3,
    FIRST_WORD_WRONG = 4,
    IMAGE_TOO_SHORT = 5,
    OPCODE_WRONG = 6,
    CHECKSUM_DIFFERS = 11,
    SEEK_WRONG = 12,
    HOST_ENDED = 14,
    OPCODE_RETIRED = 15,
    CALL_WRONG = 19,
    NOT_ANSWERED = 20,
    ROOM_TOO_SHORT = 23
};

enum { WORD = PLAIN_WORD_BYTES, REQUEST_BYTES = 3 * WORD, IMAGE_LIMIT = 65536, TRIES_LIMIT = 1000, REPLY_LIMIT = 8 };

static const uint32_t FIRST_WORD = 0x41504954, RETIRED = 0x58535905;

/* ---- Words ---- */

static uint32_t read_word(const uint8_t *bytes)
{
    return (uint32_t)bytes[0] | (uint32_t)bytes[1] << 8 | (uint32_t)bytes[2] << 16 | (uint32_t)bytes[3] << 24;
}

static void write_word(uint8_t *bytes, uint32_t word)
{
    for (unsigned index = 0; index < WORD; index++)
        bytes[index] = (uint8_t)(word >> (8 * index));
}

/* ---- Commands ---- */

enum command {
    LOAD,
    FILL,
    BOOT_TABLE,
    ENABLE,
    DISABLE,
    REQUEST,
    START_OVER,
    JUMP_AND_CLOSE,
    PING,
    SEQUENTIAL_READ_ENABLE,
    COMMANDS
};

enum { NOT_IN_IMAGES = -1 };

static const struct command_row {
    uint32_t opcode;
    int words; /* that it has in an image; a Jump & Close of a DM648 has two more */
} ROWS[COMMANDS] = {
    [LOAD] = {0x58535901, 2},
    [FILL] = {0x5853590A, 4},
    [BOOT_TABLE] = {0x58535907, 4},
    [ENABLE] = {0x58535903, 0},
    [DISABLE] = {0x58535904, 0},
    [REQUEST] = {0x58535902, 2},
    [START_OVER] = {0x58535908, NOT_IN_IMAGES},
    [JUMP_AND_CLOSE] = {0x58535906, 1},
    [PING] = {0x5853590B, NOT_IN_IMAGES},
    [SEQUENTIAL_READ_ENABLE] = {0x58535963, 0},
};

static uint32_t acknowledgement(uint32_t opcode)
{
    return (opcode & 0x00FFFFFF) | (uint32_t)0x52 << 24;
}

/* A word of the image as it is lent now, some words behind the host's offset; bytes past its end count as 0. */
static uint32_t image_word(const struct plain_host *host, const uint8_t *image, unsigned behind)
{
    uint8_t bytes[WORD] = {0};
    uint64_t at = (uint64_t)host->offset + behind * WORD;

    for (unsigned index = 0; index < WORD; index++)
        if (at + index < host->image_length)
            bytes[index] = image[at + index];
    return read_word(bytes);
}

static unsigned argument_words(unsigned dialect, enum command command)
{
    return (unsigned)ROWS[command].words + (dialect == PLAIN_DM648 && command == JUMP_AND_CLOSE ? 2 : 0);
}

static enum refusal find_command(uint32_t opcode, enum command *found)
{
    if (opcode == RETIRED)
        return OPCODE_RETIRED;
    for (unsigned command = 0; command < COMMANDS; command++) {
        if (ROWS[command].opcode == opcode && ROWS[command].words != NOT_IN_IMAGES) {
            *found = (enum command)command;
            return ACCEPTED;
        }
    }
    return OPCODE_WRONG;
}

/* Judges the command at the host's offset, and finds its end: 5 for the opcode, 6 or 15, 5 for the arguments, 5 for load data. */
static enum refusal judge_command(const struct plain_host *host, const uint8_t *image, enum command *command, uint64_t *end)
{
    enum refusal refusal;

    *end = (uint64_t)host->offset + WORD;
    if (*end > host->image_length)
        return IMAGE_TOO_SHORT;
    refusal = find_command(read_word(image + host->offset), command);
    if (refusal != ACCEPTED)
        return refusal;
    *end += WORD * argument_words(host->dialect, *command);
    if (*end > host->image_length)
        return IMAGE_TOO_SHORT;
    if (*command == LOAD) /* the size is its last argument */
        *end += ((uint64_t)read_word(image + *end - WORD) + WORD - 1) / WORD * WORD;
    return *end > host->image_length ? IMAGE_TOO_SHORT : ACCEPTED;
}

/* ---- What goes out ---- */

static struct plain_turn send_nothing(void)
{
    return (struct plain_turn){.sending = PLAIN_SENDS_NOTHING};
}

static struct plain_turn send_word(uint32_t word)
{
    return (struct plain_turn){.sending = PLAIN_SENDS_WORD, .word = word};
}

/* A refusal that ends the host, and changes nothing else in it. */
static struct plain_turn refuse(struct plain_host *host, enum refusal refusal)
{
    host->has_ended = true;
    return (struct plain_turn){.refusal = (uint8_t)refusal};
}

/* The count, and then the numbers from 1 on. */
static uint32_t echoed_word(const struct plain_host *host)
{
    return host->echo == 0 ? host->pings : host->echo;
}

/* What a wait sends when it begins. An opcode is the word of the image at the host's offset. */
static struct plain_turn send_for_wait(const struct plain_host *host, const uint8_t *image)
{
    switch (host->wait) {
    case PLAIN_START:
        return (struct plain_turn){.sending = PLAIN_SENDS_START_UNIT};
    case PLAIN_PING:
        return send_word(ROWS[PING].opcode);
    case PLAIN_ECHO:
        return send_word(echoed_word(host));
    case PLAIN_OPCODE:
        return send_word(image_word(host, image, 0));
    case PLAIN_OVER:
        return send_word(ROWS[START_OVER].opcode);
    default:
        return send_nothing();
    }
}

/* What it sends again: Ping's count and words never. */
static struct plain_turn send_again(const struct plain_host *host, const uint8_t *image)
{
    return host->wait == PLAIN_ECHO ? send_nothing() : send_for_wait(host, image);
}

/* ---- Waits ---- */

/* Begins a wait: no try is spent, and nothing was heard. */
static void begin_wait(struct plain_host *host, enum plain_wait wait)
{
    host->wait = wait;
    host->spent = 0;
    host->command = 0;
    host->end = 0;
    host->echo = 0;
    host->sought = 0;
    memset(host->heard, 0, sizeof host->heard);
    host->heard_count = 0;
    host->has_news = false;
}

/* Whether so many bytes came in this wait, and these are the newest. */
static bool heard_last(const struct plain_host *host, const void *bytes, size_t count)
{
    return host->heard_count >= count && memcmp(host->heard + PLAIN_EAR - count, bytes, count) == 0;
}

static uint32_t newest_word(const struct plain_host *host)
{
    return read_word(host->heard + PLAIN_EAR - WORD);
}

static bool heard_word(const struct plain_host *host, uint32_t word)
{
    return host->heard_count >= WORD && newest_word(host) == word;
}

/* An opcode's acknowledgement; a Request's has the register behind it. */
static bool is_acknowledged(const struct plain_host *host, const uint8_t *image)
{
    uint32_t answer = acknowledgement(image_word(host, image, 0));

    if (host->command == REQUEST)
        return host->heard_count >= 2 * WORD && read_word(host->heard) == answer;
    return heard_word(host, answer);
}

/* Whether the right answer was heard. */
static bool is_answered(const struct plain_host *host, const uint8_t *image)
{
    switch (host->wait) {
    case PLAIN_GREETING:
        return host->line == PLAIN_HALVES || heard_last(host, "BOOTME", 6);
    case PLAIN_START:
        return host->line == PLAIN_HALVES ? heard_last(host, "\x53\x52", 2) : heard_last(host, "\x52", 1);
    case PLAIN_PING:
        return heard_word(host, acknowledgement(ROWS[PING].opcode));
    case PLAIN_ECHO:
        return heard_word(host, echoed_word(host));
    case PLAIN_OPCODE:
        return is_acknowledged(host, image);
    case PLAIN_OVER:
        return heard_word(host, acknowledgement(ROWS[START_OVER].opcode));
    default:
        return heard_last(host, "DONE", 4);
    }
}

/* A look without the right answer. What was heard is kept, but it is no news any more. */
static struct plain_turn look_in_vain(struct plain_host *host, const uint8_t *image)
{
    bool had_news = host->has_news;

    if (host->wait == PLAIN_ECHO && host->heard_count >= WORD)
        return refuse(host, NOT_ANSWERED);
    if ((uint64_t)host->spent + 1 >= host->tries)
        return refuse(host, NOT_ANSWERED);
    host->spent++;
    host->has_news = false;
    return had_news ? send_nothing() : send_again(host, image);
}

/* ---- What follows an answer ---- */

static struct plain_turn meet_command(struct plain_host *host, const uint8_t *image)
{
    enum command command = COMMANDS;
    uint64_t end;
    enum refusal refusal = judge_command(host, image, &command, &end);

    if (refusal != ACCEPTED)
        return refuse(host, refusal);
    if (command == SEQUENTIAL_READ_ENABLE) { /* the next command is waited for anew */
        host->offset = (uint32_t)end;
        begin_wait(host, PLAIN_NO_WAIT);
        return send_nothing();
    }
    begin_wait(host, PLAIN_OPCODE);
    host->command = command;
    host->end = (uint32_t)end;
    return send_for_wait(host, image);
}

/* A Request and its answer are here: goes on behind it, or begins to go back by the seek, which counts from there. */
static struct plain_turn compare_checksum(struct plain_host *host, const uint8_t *image)
{
    uint32_t sought;

    if (newest_word(host) == image_word(host, image, 1)) {
        host->offset = host->end;
        begin_wait(host, PLAIN_NO_WAIT);
        return send_nothing();
    }
    if (host->retries >= host->limit)
        return refuse(host, CHECKSUM_DIFFERS);
    sought = host->offset + REQUEST_BYTES + image_word(host, image, 2);
    if (sought % WORD != 0 || sought < WORD || sought >= host->offset)
        return refuse(host, SEEK_WRONG);
    host->retries++;
    begin_wait(host, PLAIN_OVER);
    host->sought = sought;
    return send_for_wait(host, image);
}

/* An opcode was acknowledged: its words go out from the image. An AM17xx says nothing to its close, a DM648 does. */
static struct plain_turn send_arguments(struct plain_host *host)
{
    bool closes = host->command == JUMP_AND_CLOSE;
    uint64_t from = (uint64_t)host->offset + WORD;
    uint32_t end = host->end;

    if (from > end || end > host->image_length)
        return refuse(host, IMAGE_TOO_SHORT);
    host->offset = end;
    begin_wait(host, closes && host->dialect == PLAIN_DM648 ? PLAIN_CLOSING : PLAIN_NO_WAIT);
    host->has_ended = closes && host->dialect == PLAIN_AM17XX;
    return (struct plain_turn){.sending = PLAIN_SENDS_STRETCH, .offset = (uint32_t)from, .length = end - (uint32_t)from};
}

/* The next of Ping's words, or the first command. */
static void go_on_from_echo(struct plain_host *host)
{
    uint32_t echo = host->echo;
    bool has_more = echo < host->pings;

    begin_wait(host, has_more ? PLAIN_ECHO : PLAIN_NO_WAIT);
    host->echo = has_more ? echo + 1 : 0;
}

static struct plain_turn go_on(struct plain_host *host, const uint8_t *image)
{
    switch (host->wait) {
    case PLAIN_GREETING:
        begin_wait(host, PLAIN_START);
        break;
    case PLAIN_START:
        begin_wait(host, PLAIN_PING);
        break;
    case PLAIN_PING:
        begin_wait(host, PLAIN_ECHO);
        break;
    case PLAIN_ECHO:
        go_on_from_echo(host);
        break;
    case PLAIN_OPCODE:
        return host->command == REQUEST ? compare_checksum(host, image) : send_arguments(host);
    case PLAIN_OVER:
        host->offset = host->sought;
        begin_wait(host, PLAIN_NO_WAIT);
        break;
    default: /* the close is answered, and nothing else changes */
        host->has_ended = true;
        break;
    }
    return send_for_wait(host, image);
}

/* ---- The host ---- */

static bool length_is_right(size_t image_length)
{
    return image_length % WORD == 0 && image_length >= WORD && image_length <= IMAGE_LIMIT;
}

static enum refusal judge_opening(const uint8_t *image, size_t image_length, uint32_t tries)
{
    if (!length_is_right(image_length))
        return IMAGE_LENGTH_WRONG;
    if (read_word(image) != FIRST_WORD)
        return FIRST_WORD_WRONG;
    return tries < 1 || tries > TRIES_LIMIT ? NOT_ANSWERED : ACCEPTED;
}

uint8_t plain_host_open(struct plain_host *host, uint8_t line, uint8_t dialect, const uint8_t *image, size_t image_length,
                        uint32_t tries, uint8_t limit, uint32_t pings)
{
    enum refusal refusal = judge_opening(image, image_length, tries);

    *host = (struct plain_host){.offset = WORD, .wait = PLAIN_GREETING, .has_ended = refusal != ACCEPTED};
    if (refusal != ACCEPTED)
        return (uint8_t)refusal;
    host->line = line;
    host->dialect = dialect;
    host->image_length = image_length;
    host->tries = tries;
    host->limit = limit;
    host->pings = pings;
    return ACCEPTED;
}

void plain_host_hear(struct plain_host *host, uint8_t byte)
{
    memmove(host->heard, host->heard + 1, PLAIN_EAR - 1);
    host->heard[PLAIN_EAR - 1] = byte;
    if (host->heard_count < PLAIN_EAR)
        host->heard_count++;
    host->has_news = true;
}

struct plain_turn plain_host_turn(struct plain_host *host, const uint8_t *image, size_t image_length)
{
    if (host->has_ended)
        return (struct plain_turn){.refusal = HOST_ENDED};
    if (image_length != host->image_length || !length_is_right(image_length))
        return (struct plain_turn){.refusal = IMAGE_LENGTH_WRONG};
    if (host->wait == PLAIN_NO_WAIT)
        return meet_command(host, image);
    return is_answered(host, image) ? go_on(host, image) : look_in_vain(host, image);
}

const uint8_t *plain_host_sent(unsigned line, const struct plain_turn *turn, const uint8_t *image, uint8_t *room,
                               size_t *length)
{
    switch (turn->sending) {
    case PLAIN_SENDS_START_UNIT:
        memcpy(room, line == PLAIN_HALVES ? "\x53\x58" : "\x58", plain_unit_bytes(line));
        *length = plain_unit_bytes(line);
        return room;
    case PLAIN_SENDS_WORD:
        write_word(room, turn->word);
        *length = WORD;
        return room;
    case PLAIN_SENDS_STRETCH:
        *length = turn->length;
        return image + turn->offset;
    default:
        *length = 0;
        return room;
    }
}

/* ---- A host and a loader ---- */

struct exchange {
    struct plain_host host;
    plain_session *loader;
    uint8_t loader_refusal; /* the first, 14 aside */
    struct plain_stream *sent;
    struct plain_stream *replied;
};

void plain_stream_add(struct plain_stream *stream, const uint8_t *bytes, size_t length)
{
    for (size_t index = 0; index < length; index++, stream->length++)
        if (stream->length < PLAIN_STREAM_ROOM)
            stream->bytes[stream->length] = bytes[index];
}

static void hear_reply(struct exchange *exchange, const uint8_t *reply, size_t count)
{
    plain_stream_add(exchange->replied, reply, count);
    for (size_t index = 0; index < count; index++)
        plain_host_hear(&exchange->host, reply[index]);
}

static void feed_loader(struct exchange *exchange, const uint8_t *bytes, size_t length)
{
    size_t unit = plain_unit_bytes(exchange->host.line);

    plain_stream_add(exchange->sent, bytes, length);
    for (size_t index = 0; index < length; index += unit) {
        uint8_t reply[REPLY_LIMIT], refusal;
        unsigned count = plain_session_feed(exchange->loader, bytes + index, reply, &refusal);
        if (exchange->loader_refusal == ACCEPTED && refusal != HOST_ENDED)
            exchange->loader_refusal = refusal;
        hear_reply(exchange, reply, count);
    }
}

/* Turn after turn until the host has ended; its refusal is that of the last one. Each reply is heard before the next. */
static uint8_t talk(struct exchange *exchange, const uint8_t *image, size_t image_length)
{
    uint8_t greeting[REPLY_LIMIT], room[WORD];
    struct plain_turn turn = {0};

    hear_reply(exchange, greeting, plain_greeting(exchange->host.line, greeting));
    while (!exchange->host.has_ended) {
        size_t length;
        const uint8_t *bytes;
        turn = plain_host_turn(&exchange->host, image, image_length);
        bytes = plain_host_sent(exchange->host.line, &turn, image, room, &length);
        feed_loader(exchange, bytes, length);
    }
    return turn.refusal;
}

/* A whole exchange on a line and in a dialect that there is; its events are told where somebody asks. */
static uint64_t exchange_with(uint8_t line, uint8_t dialect, const uint8_t *map, size_t map_length, uint8_t *memory,
                              size_t memory_length, const uint8_t *image, size_t image_length, uint32_t tries, uint8_t limit,
                              uint32_t pings, struct exchange *exchange, struct plain_events *events)
{
    uint32_t address = 0;
    uint8_t refusal;
    uint64_t entered;

    exchange->loader = plain_session_open(line, dialect, map, map_length, memory, memory_length, &refusal);
    if (exchange->loader == NULL)
        return (uint64_t)refusal << 56;
    plain_session_tell(exchange->loader, events);
    refusal = plain_host_open(&exchange->host, line, dialect, image, image_length, tries, limit, pings);
    if (refusal == ACCEPTED)
        refusal = talk(exchange, image, image_length);
    entered = plain_session_entered(exchange->loader, &address) != 0;
    plain_session_end(exchange->loader);
    return (uint64_t)refusal << 56 | (uint64_t)exchange->host.retries << 48 | (uint64_t)exchange->loader_refusal << 40 |
           entered << 32 | address;
}

uint64_t plain_host_session(uint8_t line, uint8_t dialect, const uint8_t *map, size_t map_length, uint8_t *memory,
                            size_t memory_length, const uint8_t *image, size_t image_length, uint32_t tries, uint8_t limit,
                            uint32_t pings, struct plain_stream *sent, struct plain_stream *replied)
{
    struct exchange exchange = {.sent = sent, .replied = replied};

    sent->length = replied->length = 0;
    if (line > PLAIN_HALVES || dialect > PLAIN_DM648)
        return (uint64_t)CALL_WRONG << 56;
    return exchange_with(line, dialect, map, map_length, memory, memory_length, image, image_length, tries, limit, pings,
                         &exchange, NULL);
}

uint64_t plain_host_events(uint8_t line, uint8_t dialect, const uint8_t *map, size_t map_length, uint8_t *memory,
                           size_t memory_length, const uint8_t *image, size_t image_length, uint32_t tries, uint8_t limit,
                           uint32_t pings, uint8_t *room, size_t room_length)
{
    static struct plain_stream sent, replied;
    struct exchange exchange = {.sent = &sent, .replied = &replied};
    struct plain_events events = {.room = room, .length = room_length};
    uint64_t value;

    sent.length = replied.length = 0;
    if (line > PLAIN_HALVES || dialect > PLAIN_DM648)
        return (uint64_t)CALL_WRONG << 56;
    if (room_length < plain_events_room(image_length, limit))
        return (uint64_t)ROOM_TOO_SHORT << 56;
    value = exchange_with(line, dialect, map, map_length, memory, memory_length, image, image_length, tries, limit, pings,
                          &exchange, &events);
    return value >> 56 << 56 | events.count;
}
