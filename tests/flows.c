/*
 * Who hears whom, as the header shows it, on the compiled library: the square of a context, single flows, and by termination.
 * Compiled as C99 and as C++.
 */
#include <stdio.h>
#include <string.h>

#include "cordafina.h"

/* With room behind it, where no word may be read. */
static uint32_t table[CORDAFINA_TABLE_WORDS(CORDAFINA_MOST_LINES) + 16];
static uint32_t blocks[CORDAFINA_BLOCK_WORDS];
static uint8_t reply[CORDAFINA_REPLY_BYTES];
static uint32_t lines;
static int failed, checks;

static void expect(int holds, const char *what)
{
    checks++;
    if (!holds) {
        printf("flows: FAILED on %u lines: %s\n", (unsigned)lines, what);
        failed = 1;
    }
}

/* Runs a request that succeeds. */
static void request(const char *text)
{
    static const char own[] = "[10.0.0.9]", head[] = "!/1 [10.0.0.1] ";
    char message[256];
    static uint32_t room_words[CORDAFINA_ROOM_WORDS];
    static uint8_t room_bytes[CORDAFINA_ROOM_BYTES];
    size_t length, place;
    uint64_t answer;
    strcpy(message, head);
    strcat(message, text);
    memset(room_words, 0, sizeof room_words);
    answer = cordafina_answer(lines, (const uint8_t *)message, strlen(message), table, CORDAFINA_TABLE_WORDS(lines),
                              room_words, CORDAFINA_ROOM_WORDS, room_bytes, sizeof room_bytes,
                              blocks, CORDAFINA_BLOCK_WORDS, (const uint8_t *)own, strlen(own), reply, sizeof reply);
    length = cordafina_length(answer);
    for (place = 0; place + 2 < length && memcmp(reply + place, "ER=", 3) != 0; place++) {
    }
    expect(length > 0 && place + 2 == length, text);
}

static int hears(size_t listener, size_t speaker)
{
    return cordafina_hears(lines, table, listener, speaker);
}

/* So many members, each heard by every other. */
static uint64_t all(unsigned members)
{
    uint64_t flows = 0;
    for (unsigned i = 0; i < members; i++) {
        for (unsigned j = 0; j < members; j++) {
            flows |= (uint64_t)(i != j) << (8 * i + j);
        }
    }
    return flows;
}

static void one_count(void)
{
    const size_t a = CORDAFINA_LINE(1, 1), b = CORDAFINA_LINE(1, 2), c = CORDAFINA_LINE(1, 3);
    const size_t first = CORDAFINA_EPHEMERAL(lines, 1), last = CORDAFINA_EPHEMERAL(lines, 8);
    uint64_t flows;

    memset(table, 0xFF, sizeof table);
    memset(table, 0, CORDAFINA_TABLE_WORDS(lines) * sizeof table[0]);
    expect(!hears(a, b) && !hears(b, a), "nobody hears anybody in null");
    request("T=1{C=${A=L/1/1,A=L/1/3}}");
    expect(cordafina_flows(lines, table, 1) == all(2), "two who join hear each other");
    expect(hears(a, c) && hears(c, a) && !hears(a, a) && !hears(a, b), "by termination");

    /* A, B, Oneway: B hears A, and A does not hear B. */
    request("T=2{C=1{TP{L/1/1,L/1/3,OW}}}");
    flows = cordafina_flows(lines, table, 1);
    expect(flows == 2, "bit 8i + j");
    expect(CORDAFINA_FLOW(flows, 0, 1) == 1 && CORDAFINA_FLOW(flows, 1, 0) == 0, "member 0 flows to member 1");
    expect(hears(c, a) && !hears(a, c), "B hears A");

    /* One that joins between them takes place 1. */
    request("T=3{C=1{A=L/1/2}}");
    flows = cordafina_flows(lines, table, 1);
    expect(CORDAFINA_FLOW(flows, 0, 2) && !CORDAFINA_FLOW(flows, 2, 0), "the pair has other places");
    expect(hears(c, a) && !hears(a, c), "B hears A still");
    expect(hears(b, a) && hears(a, b) && hears(b, c) && hears(c, b), "one that joins");
    request("T=4{C=1{S=L/1/2}}");
    expect(cordafina_flows(lines, table, 1) == 2, "one that leaves");

    /* Eight, so that the high half counts; the last flows to the first alone of the two. */
    request("T=5{C=${A=$,A=$,A=$,A=$,A=$,A=$,A=$,A=$}}");
    expect(cordafina_flows(lines, table, 2) == all(8), "eight hear each other");
    request("T=6{C=2{TP{R/8,R/1,OW,R/2,R/7,IS}}}");
    flows = cordafina_flows(lines, table, 2);
    expect(flows == (all(8) & ~((uint64_t)1 << 7 | (uint64_t)1 << 14 | (uint64_t)1 << 49)), "rows 0, 1 and 6");
    expect(CORDAFINA_FLOW(flows, 7, 0) && !CORDAFINA_FLOW(flows, 0, 7), "member 7 flows to member 0");
    expect(hears(first, last) && !hears(last, first), "R/1 hears R/8");
    /* The place of L/1/1 among those of the other context would be that of R/1. */
    expect(!hears(a, last) && !hears(a, first) && !hears(first, a), "they are in two contexts");

    expect(cordafina_flows(lines, table, 0) == 0 && cordafina_flows(lines, table, 3) == 0
               && cordafina_flows(lines, table, 128) == 0 && cordafina_flows(lines, table, 129) == 0
               && cordafina_flows(lines, table, UINT32_MAX) == 0,
           "contexts that do not exist");
    expect(!hears(CORDAFINA_TERMINATIONS(lines), a) && !hears(a, CORDAFINA_TERMINATIONS(lines))
               && !hears((size_t)1 << 40, a) && !hears(a, (size_t)1 << 40),
           "numbers of no termination");
}

int main(void)
{
    for (lines = 1; lines <= CORDAFINA_MOST_LINES; lines++) {
        one_count();
    }
    if (!failed) {
        printf("flows: %d checks on 1 to 16 lines passed\n", checks);
    }
    return failed;
}
