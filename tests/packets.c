/*
 * Packets and their figures, as the header shows them, on the compiled library: 64 structs are the 256 words that are lent, what a
 * packet changes, what a reply tells, when a block is zeroed, and refusals. Compiled as C99 and as C++.
 */
#include <stdio.h>
#include <string.h>

#include "cordafina.h"

static uint32_t table[CORDAFINA_TABLE_WORDS(CORDAFINA_MOST_LINES)];
/* One more on either side, which no call may touch. */
static cordafina_block all[CORDAFINA_EPHEMERALS + 2], before[CORDAFINA_EPHEMERALS + 2];
static cordafina_block *const blocks = all + 1;
static uint32_t room_words[CORDAFINA_ROOM_WORDS];
static uint8_t room_bytes[CORDAFINA_ROOM_BYTES];
static uint8_t reply[CORDAFINA_REPLY_BYTES];
static uint32_t lines;
static int failed, checks;

static void expect(int holds, const char *what)
{
    checks++;
    if (!holds) {
        printf("packets: FAILED on %u lines: %s\n", (unsigned)lines, what);
        failed = 1;
    }
}

/* Runs a request, whose reply must be this one. */
static void request(const char *text, const char *expected)
{
    static const char own[] = "[10.0.0.9]", head[] = "!/1 [10.0.0.1] ", start[] = "!/1 [10.0.0.9] ";
    char message[256];
    uint64_t answer;
    strcpy(message, head);
    strcat(message, text);
    memcpy(before, all, sizeof all);
    answer = cordafina_answer(lines, (const uint8_t *)message, strlen(message), table, CORDAFINA_TABLE_WORDS(lines),
                              room_words, CORDAFINA_ROOM_WORDS, room_bytes, sizeof room_bytes,
                              cordafina_block_words(blocks), CORDAFINA_BLOCK_WORDS, (const uint8_t *)own, strlen(own), reply, sizeof reply);
    expect(cordafina_length(answer) == strlen(start) + strlen(expected) && memcmp(reply, start, strlen(start)) == 0
               && memcmp(reply + strlen(start), expected, strlen(expected)) == 0,
           text);
}

static uint32_t packet(uint32_t n, uint32_t arrival, uint32_t stamp)
{
    memcpy(before, all, sizeof all);
    return cordafina_packet(lines, table, CORDAFINA_TABLE_WORDS(lines), cordafina_block_words(blocks), CORDAFINA_BLOCK_WORDS, n, arrival,
                            stamp);
}

static cordafina_block block(uint32_t packets, uint32_t transit, uint64_t jitter)
{
    cordafina_block made;
    made.packets = packets;
    made.transit = transit;
    made.jitter_low = (uint32_t)jitter;
    made.jitter_high = (uint32_t)(jitter >> 32);
    return made;
}

/* Of the last call: R/n's block is now this one, and every other as it was; n is 0 where none changed. */
static void left(uint32_t n, cordafina_block expected, const char *what)
{
    if (n != 0) {
        before[n] = expected;
    }
    expect(memcmp(before, all, sizeof all) == 0, what);
}

/* Blocks that are not sound: a packet, one of an absent ephemeral too, and a call are turned down and change nothing. */
static void unsound(const char *what)
{
    uint64_t answer;
    expect(packet(2, 5, 3) == CORDAFINA_TABLE_UNSOUND && packet(65, 5, 3) == CORDAFINA_TABLE_UNSOUND, what);
    left(0, blocks[0], what);
    answer = cordafina_answer(lines, (const uint8_t *)"x", 1, table, CORDAFINA_TABLE_WORDS(lines),
                              room_words, CORDAFINA_ROOM_WORDS, room_bytes, sizeof room_bytes,
                              cordafina_block_words(blocks), CORDAFINA_BLOCK_WORDS, (const uint8_t *)"mg", 2, reply, sizeof reply);
    expect(cordafina_refusal(answer) == CORDAFINA_TABLE_UNSOUND, what);
    left(0, blocks[0], what);
}

static void one_count(void)
{
    const cordafina_block zero = block(0, 0, 0);
    const uint64_t bound = (uint64_t)1 << 35;
    const uint32_t *words = cordafina_block_words(blocks);

    memset(table, 0, sizeof table);
    memset(room_words, 0, sizeof room_words);
    memset(all, 0xA5, sizeof all);
    memset(blocks, 0, CORDAFINA_BLOCK_WORDS * sizeof(uint32_t));
    expect(packet(1, 1000, 200) == CORDAFINA_EPHEMERAL_ABSENT, "no ephemeral yet");
    left(0, zero, "an absent one's packet changes nothing");
    request("T=1{C=${A=$,A=$}}", "P=1{C=1{A=R/1,A=R/2}}");

    expect(packet(2, 1000, 200) == CORDAFINA_TAKEN, "the first packet");
    left(2, block(1, 800, 0), "it sets the transit and leaves J at 0");
    expect(packet(2, 1180, 360) == CORDAFINA_TAKEN, "the second");
    left(2, block(2, 820, 20), "J is the difference");
    expect(words[4] == 2 && words[5] == 820 && words[6] == 20 && words[7] == 0, "four words a block");
    expect(cordafina_jitter(&blocks[1]) == 1, "a sixteenth part is told");
    expect(packet(1, 0, 1) == CORDAFINA_TAKEN && packet(1, 0x7FFFFFFF, 0) == CORDAFINA_TAKEN, "the greatest difference");
    left(1, block(2, 0x7FFFFFFF, (uint64_t)1 << 31), "2^31");

    request("T=2{C=1{MF=*,AV=R/1{AT{M}},O-S=R/1{M}},C=${MV=R/2}}",
            "P=2{C=1{MF=R/1,MF=R/2,AV=R/1{M{TS{SI=IV},O{MO=IN}}},S=R/1{ER=447{}}},C=2{MV=R/2}}");
    left(0, zero, "Modify, audits, Move and failures leave the blocks");
    request("T=3{C=2{S=*}}", "P=3{C=2{S=R/2{SA{rtp/pr=2,rtp/jit=1}}}}");
    left(0, zero, "Subtract tells a block and leaves it");
    expect(packet(2, 0, 0) == CORDAFINA_EPHEMERAL_ABSENT, "it is gone");
    request("T=4{C=1{A=$}}", "P=4{C=1{A=R/2}}");
    left(2, zero, "a new ephemeral starts at zero");

    blocks[0] = block(UINT32_MAX, 0, bound);
    expect(packet(1, 0x80000000, 0) == CORDAFINA_TAKEN, "a packet at both limits");
    left(1, block(UINT32_MAX, 0x80000000, bound), "the count is held, and J does not pass 2^35");
    request("T=5{C=1{S=R/1}}", "P=5{C=1{S=R/1{SA{rtp/pr=4294967295,rtp/jit=2147483648}}}}");

    expect(packet(0, 5, 3) == CORDAFINA_EPHEMERAL_ABSENT && packet(65, 5, 3) == CORDAFINA_EPHEMERAL_ABSENT
               && packet(UINT32_MAX, 5, 3) == CORDAFINA_EPHEMERAL_ABSENT,
           "outside 1 to 64");
    left(0, zero, "they change nothing");
    expect(cordafina_packet(lines, table, CORDAFINA_TABLE_WORDS(lines), cordafina_block_words(blocks), 252, 2, 5, 3)
               == CORDAFINA_TABLE_UNSOUND,
           "63 blocks");
    expect(cordafina_packet(17, table, CORDAFINA_TABLE_WORDS(lines), cordafina_block_words(blocks), 252, 65, 5, 3)
               == CORDAFINA_LINES_UNFIT,
           "17 lines, before all others");
    blocks[63] = block(1, 0, bound + 1);
    unsound("J over 2^35");
    blocks[63] = block(0, 1, 0);
    unsound("no packets, and a transit");
    blocks[63] = block(0, 0, 1);
    unsound("no packets, and J");
    blocks[63] = block(1, 0, bound);
    expect(packet(2, 5, 3) == CORDAFINA_TAKEN, "an absent ephemeral's block holds anything sound");
    left(2, block(1, 2, 0), "R/2's first packet");
}

int main(void)
{
    for (lines = 1; lines <= CORDAFINA_MOST_LINES; lines++) {
        one_count();
    }
    if (!failed) {
        printf("packets: %d checks on 1 to 16 lines passed\n", checks);
    }
    return failed;
}
