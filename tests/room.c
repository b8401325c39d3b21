/*
 * Kept replies as the header shows them, on the compiled library: the layout of the room, a repeat that gets the same bytes, the oldest that
 * goes, acknowledgements, what stays in the buffer and the room, and refusal 5. Compiled as C99 and as C++.
 */
#include <stdio.h>
#include <string.h>

#include "cordafina.h"

enum { SIDE = 5, FILL = 0xA5, SLOT = CORDAFINA_ROOM_BYTES / CORDAFINA_ROOM_SLOTS };

/* The words and bytes of a room, with some more on either side, which no call may touch. */
typedef struct room {
    uint32_t words[SIDE + CORDAFINA_ROOM_WORDS + SIDE];
    uint8_t bytes[SIDE + CORDAFINA_ROOM_BYTES + SIDE];
} room;

static const char own[] = "[10.0.0.9]";
static uint32_t table[CORDAFINA_TABLE_WORDS(CORDAFINA_MOST_LINES)], table_before[CORDAFINA_TABLE_WORDS(CORDAFINA_MOST_LINES)];
static uint32_t blocks[CORDAFINA_BLOCK_WORDS];
static room all, before;
static uint32_t *const words = all.words + SIDE;
static uint8_t *const bytes = all.bytes + SIDE;
static uint8_t reply[CORDAFINA_REPLY_BYTES];
static uint32_t lines;
static int failed, checks;

static void expect(int holds, const char *what)
{
    checks++;
    if (!holds) {
        printf("room: FAILED on %u lines: %s\n", (unsigned)lines, what);
        failed = 1;
    }
}

/* A call on a buffer that holds a pattern, with so many words and bytes of the room. */
static uint64_t called(const char *message, size_t words_len, size_t bytes_len)
{
    memcpy(&before, &all, sizeof all);
    memcpy(table_before, table, sizeof table);
    memset(reply, FILL, sizeof reply);
    return cordafina_answer(lines, (const uint8_t *)message, strlen(message), table, CORDAFINA_TABLE_WORDS(lines),
                            words, words_len, bytes, bytes_len, blocks, CORDAFINA_BLOCK_WORDS,
                            (const uint8_t *)own, strlen(own), reply, sizeof reply);
}

/* Whether the bytes of the buffer from a place on are as they were. */
static int stays(size_t from)
{
    while (from < sizeof reply && reply[from] == FILL) {
        from++;
    }
    return from == sizeof reply;
}

/* A message from a sender, whose reply must be this one behind the header; "" for none at all. */
static void says(const char *sender, const char *parts, const char *expected)
{
    char message[512], text[512] = "";
    uint64_t answer;
    sprintf(message, "!/1 %s %s", sender, parts);
    if (expected[0] != 0) {
        sprintf(text, "!/1 %s %s", own, expected);
    }
    answer = called(message, CORDAFINA_ROOM_WORDS, CORDAFINA_ROOM_BYTES);
    expect(cordafina_refusal(answer) == CORDAFINA_TAKEN && cordafina_length(answer) == strlen(text)
               && memcmp(reply, text, strlen(text)) == 0 && stays(strlen(text)),
           message);
}

static int same_room(void)
{
    return memcmp(&before, &all, sizeof all) == 0;
}

static int same_table(void)
{
    return memcmp(table_before, table, sizeof table) == 0;
}

/* A room of this size or content is turned down, and nothing is written. */
static void refused(size_t words_len, size_t bytes_len, const char *what)
{
    uint64_t answer = called("!/1 gw/z T=99{C=${A=$}}", words_len, bytes_len);
    expect(answer == (uint64_t)CORDAFINA_ROOM_UNSOUND << 32 && same_room() && same_table() && stays(0), what);
}

/* The same with one word of the room changed, and then put back; or, where it is not judged, taken. */
static void with_word(size_t place, uint32_t word, int sound, const char *what)
{
    room held = all;
    uint64_t answer;
    words[place] = word;
    if (sound) {
        answer = called("!/1 gw/z noise", CORDAFINA_ROOM_WORDS, CORDAFINA_ROOM_BYTES);
        expect(cordafina_refusal(answer) == CORDAFINA_TAKEN && same_room(), what);
    } else {
        refused(CORDAFINA_ROOM_WORDS, CORDAFINA_ROOM_BYTES, what);
    }
    all = held;
}

static void one_count(void)
{
    char request[64], answer[64];
    unsigned id;

    memset(table, 0, sizeof table);
    memset(blocks, 0, sizeof blocks);
    memset(&all, FILL, sizeof all);
    memset(words, 0, CORDAFINA_ROOM_SLOTS * sizeof *words);
    says("[10.0.0.1]", "T=7{C=${A=L/1/5,A=$}}", "P=7{C=1{A=L/1/5,A=R/1}}");
    expect(words[0] == 1 && words[1] == 0, "the reply is in slot 1");
    expect(words[15 + 1] == 7 && words[31 + 1] == 10 && words[47 + 1] == 23, "the identifier and the lengths");
    expect(memcmp(bytes, "[10.0.0.1]", 10) == 0 && bytes[10] == FILL, "the sender's mId");
    expect(memcmp(bytes + 72, "P=7{C=1{A=L/1/5,A=R/1}}", 23) == 0 && bytes[72 + 23] == FILL, "the reply");
    expect(words[15 + 2] == 0xA5A5A5A5 && bytes[SLOT] == FILL, "slot 2 is as it was");

    says("[10.0.0.1]", "T=7{C=${A=L/1/5,A=$}}", "P=7{C=1{A=L/1/5,A=R/1}}");
    expect(same_table() && same_room(), "a repeat does not run");
    says("[10.0.0.1]", "T=0007{C=1{S=*}}", "P=7{C=1{A=L/1/5,A=R/1}}");
    expect(same_table() && same_room(), "whatever it asks");
    says("[10.0.0.1]", "T=7{C=1{}}", "P=7{ER=403{}}");
    expect(same_table() && same_room(), "a faulty one gets 403, which is not kept");
    says("[10.0.0.01]", "T=7{C=1{A=$}}", "P=7{C=1{A=R/2}}");
    expect(words[0] == 1 && words[1] == 2 && words[2] == 0, "another sender's runs and is kept");

    says("[10.0.0.1]", "K{7}", "");
    expect(words[0] == 2 && words[1] == 0 && words[15 + 1] == 7, "it is dropped, the other sender's stays");
    says("[10.0.0.2]", "K{1-4294967295}T=1{C=1{S=R/9}}", "P=1{C=1{S=R/9{ER=430{}}}}");
    expect(words[0] == 2 && words[1] == 1 && words[15 + 1] == 1, "the lowest free slot is used");
    says("[10.0.0.2]", "T=2{C=9{S=*}}K{2}", "P=2{C=9{S=*{ER=411{}}}}");
    expect(words[2] == 0 && words[15 + 3] == 2, "kept and dropped in one message");
    says("[10.0.0.2]", "K{0}", "ER=400{}");
    says("[10.0.0.2]", "K{5-4}", "ER=400{}");
    says("[10.0.0.2]", "K{1}K", "ER=400{}");
    expect(same_room(), "a message that does not read drops nothing");

    for (id = 3; id <= 16; id++) {
        sprintf(request, "T=%u{C=-{MF=ROOT}}", id);
        sprintf(answer, "P=%u{C=-{MF=ROOT}}", id);
        says("gw/a", request, answer);
    }
    expect(words[0] == 2 && words[1] == 1 && words[2] == 3 && words[15] == 16, "16 are held, the oldest first");
    with_word(31 + 16, 72, 1, "an mId of 72 bytes");
    with_word(31 + 16, 73, 0, "an mId of 73 bytes");
    with_word(47 + 16, 2048, 1, "a reply of 2,048 bytes");
    with_word(47 + 16, 2049, 0, "a reply of 2,049 bytes");
    with_word(15 + 16, 15, 0, "a pair kept twice");
    with_word(0, 1, 0, "a slot twice");
    with_word(0, 17, 0, "no slot");
    with_word(14, 0, 0, "a gap");
    with_word(15, 0, 1, "15 held");
    refused(CORDAFINA_ROOM_WORDS - 1, CORDAFINA_ROOM_BYTES, "63 words");
    refused(CORDAFINA_ROOM_WORDS + 1, CORDAFINA_ROOM_BYTES, "65 words");
    refused(CORDAFINA_ROOM_WORDS, CORDAFINA_ROOM_BYTES - 1, "33,919 bytes");
    refused(CORDAFINA_ROOM_WORDS, CORDAFINA_ROOM_BYTES + 1, "33,921 bytes");
    refused(0, 0, "no room");
    words[0] = 17;
    table[0] = 129;
    expect(cordafina_refusal(called("", CORDAFINA_ROOM_WORDS, CORDAFINA_ROOM_BYTES)) == CORDAFINA_TABLE_UNSOUND, "2 before 5");
    table[0] = 0;
    expect(cordafina_refusal(called("", CORDAFINA_ROOM_WORDS, CORDAFINA_ROOM_BYTES)) == CORDAFINA_ROOM_UNSOUND, "5 before 1");
    words[0] = 2;
    expect(cordafina_refusal(called("", CORDAFINA_ROOM_WORDS, CORDAFINA_ROOM_BYTES)) == CORDAFINA_MESSAGE_UNFIT, "1");

    says("gw/a", "T=17{C=-{MF=ROOT}}", "P=17{C=-{MF=ROOT}}");
    expect(words[0] == 1 && words[14] == 16 && words[15] == 2, "the oldest goes, and its slot is used");
    says("[10.0.0.01]", "T=7{C=9{S=*}}", "P=7{C=9{S=*{ER=411{}}}}");
    expect(words[0] == 3 && words[15] == 1, "so its request runs again");
    says("gw/a", "TransactionResponseAck { 3-5 , 17 }", "");
    expect(words[0] == 6 && words[10] == 16 && words[11] == 1 && words[12] == 0 && words[15] == 0, "ranges and identifiers");
    expect(memcmp(before.bytes, all.bytes, sizeof all.bytes) == 0, "the bytes of dropped replies stay");
    for (id = 0; id < SIDE; id++) {
        expect(all.words[id] == 0xA5A5A5A5 && words[CORDAFINA_ROOM_WORDS + id] == 0xA5A5A5A5 && all.bytes[id] == FILL
                   && bytes[CORDAFINA_ROOM_BYTES + id] == FILL,
               "beside the room");
    }
}

int main(void)
{
    for (lines = 1; lines <= CORDAFINA_MOST_LINES; lines++) {
        one_count();
    }
    if (!failed) {
        printf("room: %d checks on 1 to 16 lines passed\n", checks);
    }
    return failed;
}
