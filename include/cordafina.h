/*
 * The Megaco trunk gateway, for C99 and C++: the call, packets and their figures,
 * the contexts as text, the texts of Local and Remote in a message, a table carried
 * to a spare, two questions about the ephemerals in use, who hears whom, and digit
 * maps.
 *
 * A call takes the count of lines that the shelf has, one H.248.1 (Megaco) text
 * message, and a table, a room of kept replies and 64 blocks of figures that the
 * caller lends, runs the message on them, and writes the reply into a buffer that
 * the caller lends. docs/REFERENCE.md says what a message may say and what is
 * answered; the code is proved equal to the definition in crates/megaco/specs.
 *
 *     cc -I include program.c crates/cordafina/out/libcordafina.a
 *
 * `(cd crates/cordafina && rt lib)` makes the archive. If the compiler finds no such file,
 * or the linker says `undefined reference to cordafina_answer`, it was not made
 * or does not stand behind the program on the command line. It is for x86-64
 * Linux and asks for nothing but the C library's memory functions.
 */
#ifndef CORDAFINA_H
#define CORDAFINA_H

#include <stddef.h>
#include <stdint.h>

#include "cordafina_digit_maps.h"

/*
 * The version of this header and its archive; it goes up with every change that
 * a caller sees. 1 had no number.
 *
 * What changes when words are added. The table grows at its end only: the words
 * named below keep their places and their meaning, CORDAFINA_TABLE_WORDS grows, and
 * the new words have macros of their own. A program that uses the macros is
 * compiled again, and no more; a table that was kept by an older version is of
 * another length and is turned down (CORDAFINA_TABLE_UNSOUND), and so is one lent
 * by a program that was compiled with an older header. All zero stays the fresh
 * table. With 6 and with 7 cordafina_answer got new arguments: a program must be
 * compiled with the header of its archive.
 */
#define CORDAFINA_VERSION 8

/*
 * Stack that a call of any function here uses at most, but for the plain digit
 * matcher. Measured and rounded up: tests/stack.c runs each function on a painted
 * stack, on some 2,700 messages, and fails if one takes more. The deepest was
 * 11,496 bytes, of a row that is read; of a call it was 9,720. It does not grow
 * with a message: items nest 8 levels, a number is written in 10 digits or 5
 * groups, and nothing else calls itself.
 */
#define CORDAFINA_STACK_BYTES 12288

/* Lines of a shelf: 1 to so many. */
#define CORDAFINA_MOST_LINES 16
/* Channels of a line; ephemerals and contexts, whatever the count of lines. */
#define CORDAFINA_CHANNELS 31
#define CORDAFINA_EPHEMERALS 64
#define CORDAFINA_CONTEXTS 128
/* The most terminations of a context. */
#define CORDAFINA_MEMBERS 8

/*
 * The table of n lines, N = 31n + 64 being the terminations. All zero is the
 * fresh table.
 *
 *   word                        holds
 *   0 .. N - 1                  the context of each termination, 0 for null:
 *   31 (l - 1) + (s - 1)          L/l/s, l 1..n, s 1..31
 *   31n + k - 1                   R/k, k 1..64; it exists exactly if the word is not 0
 *   N .. 2N - 1                 the properties of each termination, mode + 8 * state
 *   2N .. 2N + 127              contexts 1..128: 0 if absent, else 1 + priority + 16 * emergency
 *   2N + 128, 2N + 129          the map of the ephemerals, low half first: bit k - 1 is set
 *                               exactly when R/k exists
 *   2N + 130 .. 2N + 385        the flows of contexts 1..128, two words each, low half first:
 *                               bit 8i + j is set when member i flows to member j (j hears i),
 *                               the members counted from 0 in ascending number; all others 0
 *   2N + 386 .. 2N + 897        where the speech of R/1..R/64 goes, eight words each: 1, the address
 *                               (first number highest), the port and the payload type of Local,
 *                               or four zeros, then the same of Remote; of an absent one all are 0
 *
 * Modes: 0 Inactive, 1 SendOnly, 2 ReceiveOnly, 3 SendReceive, 4 Loopback.
 * States: 0 InService, 1 OutOfService, 2 Test.
 */

/* Terminations of n lines, existing or not. */
#define CORDAFINA_TERMINATIONS(n) (31 * (size_t)(n) + 64)
/* The number of L/l/s, whatever n, and that of R/k: the word that holds its context. */
#define CORDAFINA_LINE(l, s) (31 * ((size_t)(l) - 1) + ((size_t)(s) - 1))
#define CORDAFINA_EPHEMERAL(n, k) (31 * (size_t)(n) + ((size_t)(k) - 1))
/* Where the properties start, by termination number, and the records, by context number less 1. */
#define CORDAFINA_PROPERTIES(n) CORDAFINA_TERMINATIONS(n)
#define CORDAFINA_RECORDS(n) (2 * CORDAFINA_TERMINATIONS(n))
/* Where the map of the ephemerals starts. */
#define CORDAFINA_MAP(n) (CORDAFINA_RECORDS(n) + 128)
/* Where the flows start, by twice the context number less 1. */
#define CORDAFINA_FLOWS(n) (CORDAFINA_MAP(n) + 2)
/* Where the first of the four words of R/k's Local stands, and of its Remote. */
#define CORDAFINA_LOCAL(n, k) (CORDAFINA_FLOWS(n) + 256 + 8 * ((size_t)(k) - 1))
#define CORDAFINA_REMOTE(n, k) (CORDAFINA_LOCAL(n, k) + 4)
/* Words of a table: exactly so many, 1522 for eight lines. */
#define CORDAFINA_TABLE_WORDS(n) (CORDAFINA_FLOWS(n) + 768)

/*
 * The figures of an ephemeral, its block (RFC 1889 A.8): packets received, held at
 * 4294967295; the transit of the last one, arrival less RTP time modulo 2^32; the
 * jitter J, low half first, of which a reply tells the sixteenth part. The 64 blocks,
 * that of R/k being block k - 1, are lent as words, four a block: an array of 64 of
 * these, by cordafina_block_words, or one of words. All zero are fresh blocks. Sound is
 * a block with J at most 2^35 and, where it has had no packet, all zero; blocks of
 * absent ephemerals may hold anything sound.
 */
typedef struct cordafina_block {
    uint32_t packets;
    uint32_t transit;
    uint32_t jitter_low;
    uint32_t jitter_high;
} cordafina_block;
/* Words of the blocks: exactly so many. */
#define CORDAFINA_BLOCK_WORDS 256
/* 64 blocks are these words, and nothing between them: else this does not compile. */
typedef char cordafina_blocks_are_words[
    sizeof(cordafina_block[CORDAFINA_EPHEMERALS]) == CORDAFINA_BLOCK_WORDS * sizeof(uint32_t) ? 1 : -1];

/* A termination's mode and state, from its properties. */
#define CORDAFINA_MODE(properties) ((properties) % 8)
#define CORDAFINA_STATE(properties) ((properties) / 8)
#define CORDAFINA_INACTIVE 0
#define CORDAFINA_SEND_ONLY 1
#define CORDAFINA_RECEIVE_ONLY 2
#define CORDAFINA_SEND_RECEIVE 3
#define CORDAFINA_LOOPBACK 4
#define CORDAFINA_IN_SERVICE 0
#define CORDAFINA_OUT_OF_SERVICE 1
#define CORDAFINA_TEST 2
/* A context's priority and emergency, from its record, which is not 0. */
#define CORDAFINA_PRIORITY(record) (((record) - 1) % 16)
#define CORDAFINA_EMERGENCY(record) ((record) > 16)
/* From a context's flows, as cordafina_flows gives them: 1 if member i flows to member j (j hears i), else 0. */
#define CORDAFINA_FLOW(flows, i, j) ((int)((flows) >> (8 * (i) + (j)) & 1))

/*
 * The room of kept replies: 64 words and 33,920 bytes, for 16 slots numbered 1 to
 * 16. All zero is a room that keeps nothing.
 *
 *   word            holds
 *   0 .. 15         the row: the slots that hold a reply, the oldest first; then 0
 *   15 + n          of slot n: the identifier
 *   31 + n          the length of the sender's mId, at most 72
 *   47 + n          the length of the reply, at most 2,048
 *
 *   bytes from 2,120 * (n - 1) on, of slot n: 72 for the mId, then 2,048 for the reply
 *
 * Sound is a room of these sizes whose row is different numbers of 1 to 16 and then
 * zeros alone, in which no slot of the row has a length past its limit and no two
 * have the same identifier and the same mId. The words and bytes of a slot that is
 * not in the row, and bytes past a length, may be anything and stay until they are
 * used. The next reply goes into the lowest slot that is not in the row, and with
 * 16 in it into the oldest's.
 */
#define CORDAFINA_ROOM_SLOTS 16
/* Words and bytes of a room: exactly so many. */
#define CORDAFINA_ROOM_WORDS 64
#define CORDAFINA_ROOM_BYTES 33920

/* Bytes of a reply buffer: at least so many. No reply is longer. */
#define CORDAFINA_REPLY_BYTES 16640
/* Bytes of an output for the contexts as text or a row: at least so many. No text and no row is longer. */
#define CORDAFINA_OUTPUT_BYTES 8192
/* Bytes of a message: 1 to so many. */
#define CORDAFINA_MESSAGE_BYTES 4096
/* Bytes of the gateway's own mId: 1 to so many. */
#define CORDAFINA_MID_BYTES 64

/*
 * What cordafina_refusal gives. The names are those of the Rust crate and of the
 * proved code; 6 and 7 are in cordafina_digit_maps.h. Numbers that are missing
 * belong to functions that are not built.
 */
#define CORDAFINA_TAKEN 0             /* not turned down */
#define CORDAFINA_MESSAGE_UNFIT 1     /* message of 0 or over 4,096 bytes */
#define CORDAFINA_TABLE_UNSOUND 2     /* table not of the count's words, not 64 blocks, or either not sound */
#define CORDAFINA_REPLY_TOO_SHORT 3   /* reply buffer under 16,640 bytes */
#define CORDAFINA_MID_UNFIT 4         /* own mId not an mId, or over 64 bytes */
#define CORDAFINA_ROOM_UNSOUND 5      /* room not of 64 words and 33,920 bytes, or not sound */
#define CORDAFINA_LINES_UNFIT 8       /* count of lines outside 1 to 16 */
#define CORDAFINA_EPHEMERAL_ABSENT 9  /* packet of an ephemeral that does not exist, or outside 1 to 64 */
#define CORDAFINA_ROW_UNFIT 10        /* bytes that are not a sound table's row with that count of lines */
#define CORDAFINA_OUTPUT_TOO_SHORT 11 /* output under 8,192 bytes */

/* What cordafina_text_side gives. */
#define CORDAFINA_TEXT_NONE 0
#define CORDAFINA_TEXT_LOCAL 1
#define CORDAFINA_TEXT_REMOTE 2

#ifdef __cplusplus
extern "C" {
#endif

/*
 * Answers one message.
 *
 *   lines                  the count of lines, 1 to 16
 *   message, message_len   the message's bytes; read only
 *   table, table_len       the table, its length in words; read and written
 *   room_words, room_words_len   the words of the room of kept replies (64) and
 *   room_bytes, room_bytes_len   its bytes (33,920); read and written
 *   blocks, blocks_len     the figures of the ephemerals, their length in words (256); read and written
 *   own_mid, own_mid_len   the gateway's own mId, as `[10.0.0.9]`; read only
 *   reply, reply_len       where the reply goes, from the first byte on
 *
 * The low 32 bits of the result are the reply's length in bytes, the high 32
 * bits the refusal: cordafina_length and cordafina_refusal take them apart.
 * The refusals are judged in the order 8, 3, 2, 5, 4, 1, and the first that holds
 * is given, with length 0. Any other call is taken and has a reply, whatever the
 * message is: one that does not read is answered by an error text and changes no
 * word of the table or of the blocks, and nothing of the room. But a message of
 * acknowledgements (K) alone is taken with length 0: nothing is to be sent, and no
 * byte of the reply is written. The reply is not ended by a zero byte.
 *
 * A repeat. The reply of each transaction that ran is kept in the room, under the
 * sender's mId as received and the identifier; with 16 kept the oldest goes. A
 * transaction whose sender and identifier are kept is answered with the bytes kept,
 * and nothing runs. K drops the sender's own replies that it names.
 *
 * Ownership. The seven areas are the caller's before, during and after the
 * call. The library keeps no pointer, has no state and no heap, and frees
 * nothing. The table, the blocks and the room are all there is of the gateway's
 * memory: keep them between calls with the count of lines, copy them, or store
 * them. A new ephemeral's block is set to zero; no call changes a block otherwise.
 *
 * What stays. A call turned down writes no byte of the reply or the room and no
 * word of the table, the blocks or the room. A call taken writes the first
 * cordafina_length(..) bytes of the reply, and the bytes past them stay. Table,
 * blocks and room that were sound stay sound. The message and the own mId are
 * never written, nor is anything outside the table, the blocks, the room and the
 * reply buffer.
 *
 * What the caller sees to. Contents, lengths and the count of lines need no
 * check beforehand: line noise, a damaged table, one of another count and a
 * short buffer are answered. But each pointer
 * must be that of a readable (table, room, blocks, reply: writable) area of the
 * length given, not null even where that is 0; the table, the blocks and the
 * room's words are aligned as a uint32_t is; and neither table, room, blocks nor
 * reply overlaps any other area.
 *
 * Threads. Calls may run at the same time where no table, room, blocks or reply
 * buffer is used by two of them. Messages and own mIds may be shared.
 */
uint64_t cordafina_answer(uint32_t lines,
                          const uint8_t *message, size_t message_len,
                          uint32_t *table, size_t table_len,
                          uint32_t *room_words, size_t room_words_len,
                          uint8_t *room_bytes, size_t room_bytes_len,
                          uint32_t *blocks, size_t blocks_len,
                          const uint8_t *own_mid, size_t own_mid_len,
                          uint8_t *reply, size_t reply_len);

/*
 * Counts one RTP packet of R/n in its block.
 *
 *   lines                  the count of lines, 1 to 16
 *   table, table_len       the table, its length in words; read only
 *   blocks, blocks_len     the blocks, their length in words (256); read and written
 *   n                      the ephemeral's number, 1 to 64
 *   arrival, stamp         when it came, and its RTP time, in the same units, modulo 2^32
 *
 * The result is CORDAFINA_TAKEN or a refusal, judged in the order 8, 2, 9; a refusal
 * changes nothing. No call and no other packet may run on the same table or blocks at
 * the same time. Pointers and ownership are as above.
 */
uint32_t cordafina_packet(uint32_t lines,
                          const uint32_t *table, size_t table_len,
                          uint32_t *blocks, size_t blocks_len,
                          uint32_t n, uint32_t arrival, uint32_t stamp);

/* 64 blocks as words, to be lent. */
static inline uint32_t *cordafina_block_words(cordafina_block *blocks)
{
    return (uint32_t *)blocks;
}

/* The jitter that a reply tells of a block: J / 16, rounded down. */
static inline uint64_t cordafina_jitter(const cordafina_block *block)
{
    return (block->jitter_low | (uint64_t)block->jitter_high << 32) / 16;
}

/*
 * The contexts of a table as text, for people: `contexts` and their count, then a
 * line for each, ascending: number, priority, emergency 0 or 1, and the names of
 * its terminations, one space between. Each line ends with LF.
 *
 *     contexts 1
 *     1 0 0 L/1/5 R/1
 *
 *   lines                  the count of lines, 1 to 16
 *   table, table_len       the table, its length in words; read only
 *   out, out_len           where the text goes, at least 8,192 bytes
 *
 * The result is taken apart as that of cordafina_answer. The refusals are judged
 * in the order 8, 11, 2. A refusal writes no byte; otherwise the bytes past the
 * text stay. The text is not ended by a zero byte. Pointers, ownership and threads
 * are as above.
 */
uint64_t cordafina_contexts(uint32_t lines,
                            const uint32_t *table, size_t table_len,
                            uint8_t *out, size_t out_len);

/*
 * The texts in the braces of Local and Remote, for the card that sends and takes
 * the speech: the text number k of a message, in reading order and from 0.
 *
 *   message, message_len   the message's bytes; read only
 *   k                      the number; any is answered
 *
 * cordafina_text_side: whether it is Local's or Remote's; CORDAFINA_TEXT_NONE where
 * the message has no more than k texts, does not read, or is longer than a call
 * takes. cordafina_text: the part of the message that holds it, up to the closing
 * brace; it may be empty. cordafina_text_name: the part that is the name of its
 * command's termination, as written.
 *
 * A part is one number, its place in the message in the high 32 bits and its
 * length in the low 32: cordafina_place and cordafina_length take it apart. Where
 * there is no text both parts are 0. Nothing is copied, and no zero byte ends a
 * part.
 *
 * The message alone is asked, before or after its call, and no table is read. So a
 * text of a command that failed is given too; what was taken stands in the table,
 * at CORDAFINA_LOCAL and CORDAFINA_REMOTE. A name is `$` or has `*` in it where the
 * message says so; the reply says which terminations these were. Pointers,
 * ownership and threads are as above.
 */
uint32_t cordafina_text_side(const uint8_t *message, size_t message_len, size_t k);
uint64_t cordafina_text(const uint8_t *message, size_t message_len, size_t k);
uint64_t cordafina_text_name(const uint8_t *message, size_t message_len, size_t k);

/*
 * A table carried to a spare, as a row of numbers. The row has all that the table
 * has: the count of lines; of each termination its context and properties, and of
 * an ephemeral Local and Remote; of each context its record and two flow words. The
 * map of the ephemerals is worked out when it is read. A number is 1 to 5 bytes of
 * seven bits, low ones first, the top bit set on all but the last. One sound table
 * has one row, of at most 4,369 bytes.
 *
 *   lines                  the count of lines, 1 to 16
 *   table, table_len       the table, its length in words
 *   out, out_len           where the row goes, at least 8,192 bytes
 *   row, row_len           a row, and no byte more
 *
 * cordafina_write_row writes the row from the first byte of the output on; its
 * result is taken apart as that of cordafina_answer. The refusals are judged in the
 * order 8, 11, 2. cordafina_read_row fills the table from a row, whatever stood in
 * it, and gives 0 or the refusal, judged in the order 8, 2, 10: of the table only
 * the length is looked at, and 10 is given for all bytes but a sound table's row
 * with that count of lines. A refusal writes nothing; bytes past a written row stay.
 * Pointers, ownership and threads are as above; the row and the table do not overlap.
 */
uint64_t cordafina_write_row(uint32_t lines,
                             const uint32_t *table, size_t table_len,
                             uint8_t *out, size_t out_len);
uint32_t cordafina_read_row(uint32_t lines,
                            const uint8_t *row, size_t row_len,
                            uint32_t *table, size_t table_len);

/*
 * Asked of the map alone, given as one number; no table is read. Any map is
 * answered.
 *
 * cordafina_lowest_absent: the k of the lowest absent ephemeral R/k, 1 to 64, or
 * 0 if there is none. cordafina_in_use: how many ephemerals are in use.
 */
uint32_t cordafina_lowest_absent(uint64_t map);
uint32_t cordafina_in_use(uint64_t map);

/* The map in a table of so many lines, as one number. */
static inline uint64_t cordafina_map(uint32_t lines, const uint32_t *table)
{
    const uint32_t *map = table + CORDAFINA_MAP(lines);
    return map[0] | (uint64_t)map[1] << 32;
}

/*
 * The flows of a context in a table of so many lines, as one number: bit 8i + j is
 * set when member i flows to member j, the members counted from 0 in ascending
 * number. 0 for a number outside 1 to 128, and where nobody flows to anybody.
 */
static inline uint64_t cordafina_flows(uint32_t lines, const uint32_t *table, uint32_t context)
{
    const uint32_t *flows = table + CORDAFINA_FLOWS(lines);
    if (context < 1 || context > CORDAFINA_CONTEXTS) {
        return 0;
    }
    return flows[2 * context - 2] | (uint64_t)flows[2 * context - 1] << 32;
}

/*
 * Whether one termination hears another: 1 if both stand in one context and the
 * speaker flows to the listener, else 0. Each is given by its number, as
 * CORDAFINA_LINE and CORDAFINA_EPHEMERAL give it; none hears itself.
 */
static inline int cordafina_hears(uint32_t lines, const uint32_t *table, size_t listener, size_t speaker)
{
    unsigned i = 0, j = 0;
    size_t number;
    if (listener >= CORDAFINA_TERMINATIONS(lines) || speaker >= CORDAFINA_TERMINATIONS(lines)
        || table[listener] != table[speaker]) {
        return 0;
    }
    for (number = 0; number < speaker; number++) {
        i += table[number] == table[speaker];
    }
    for (number = 0; number < listener; number++) {
        j += table[number] == table[speaker];
    }
    /* A sound table has no more than eight in a context; null has. */
    return i < CORDAFINA_MEMBERS && j < CORDAFINA_MEMBERS
           && CORDAFINA_FLOW(cordafina_flows(lines, table, table[speaker]), i, j);
}

/* The length in a result of cordafina_answer, cordafina_contexts or cordafina_write_row, 0 for a call turned down; that of a part. */
static inline size_t cordafina_length(uint64_t answer)
{
    return (size_t)(answer & 0xFFFFFFFFu);
}

/* Where a part that cordafina_text or cordafina_text_name gives begins in its message. */
static inline size_t cordafina_place(uint64_t part)
{
    return (size_t)(part >> 32);
}

/* The refusal in a result of cordafina_answer or cordafina_contexts: CORDAFINA_TAKEN or one of those above. */
static inline int cordafina_refusal(uint64_t answer)
{
    return (int)(answer >> 32);
}

/* A refusal in words, for a log. */
static inline const char *cordafina_refusal_text(int refusal)
{
    switch (refusal) {
    case CORDAFINA_TAKEN: return "not turned down";
    case CORDAFINA_MESSAGE_UNFIT: return "message of 0 or over 4,096 bytes";
    case CORDAFINA_TABLE_UNSOUND: return "table not of its count's words, not 64 blocks, or either not sound";
    case CORDAFINA_REPLY_TOO_SHORT: return "reply buffer under 16,640 bytes";
    case CORDAFINA_MID_UNFIT: return "own mId not an mId, or over 64 bytes";
    case CORDAFINA_ROOM_UNSOUND: return "room not of 64 words and 33,920 bytes, or not sound";
    case CORDAFINA_BAD_MAP: return "digit map malformed or too large";
    case CORDAFINA_BAD_STRING: return "dialled string over 32 symbols, or with a foreign one";
    case CORDAFINA_LINES_UNFIT: return "count of lines outside 1 to 16";
    case CORDAFINA_EPHEMERAL_ABSENT: return "packet of an ephemeral that does not exist";
    case CORDAFINA_ROW_UNFIT: return "not a sound table's row with that count of lines";
    case CORDAFINA_OUTPUT_TOO_SHORT: return "output under 8,192 bytes";
    default: return "no refusal of this version";
    }
}

#ifdef __cplusplus
}
#endif

#endif
