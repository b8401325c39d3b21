/*
 * Places a call: a line and an RTP ephemeral into a new context, both turned on, and cleared again.
 *
 *     cc -I include examples/c/call.c crates/cordafina/out/libcordafina.a -o call
 */
#include <stdio.h>
#include <string.h>

#include "cordafina.h"

static const char *const messages[] = {
    "!/1 [10.0.0.1] T=1{C=${PR=4,A=L/1/5,A=$}}",
    "!/1 [10.0.0.1] T=2{C=1{MF=*{M{O{MO=SendReceive}}}}}",
    "!/1 [10.0.0.1] T=3{C=1{S=*}}",
};

enum { LINES = 8 };

int main(void)
{
    static const char own[] = "[10.0.0.9]";
    static uint32_t table[CORDAFINA_TABLE_WORDS(LINES)];
    static uint32_t room_words[CORDAFINA_ROOM_WORDS];
    static uint8_t room_bytes[CORDAFINA_ROOM_BYTES];
    static uint32_t blocks[CORDAFINA_BLOCK_WORDS];
    static uint8_t reply[CORDAFINA_REPLY_BYTES];
    static uint8_t text[CORDAFINA_OUTPUT_BYTES];

    for (size_t i = 0; i < sizeof messages / sizeof messages[0]; i++) {
        uint64_t answer = cordafina_answer(LINES, (const uint8_t *)messages[i], strlen(messages[i]),
                                           table, CORDAFINA_TABLE_WORDS(LINES),
                                           room_words, CORDAFINA_ROOM_WORDS, room_bytes, sizeof room_bytes,
                                           blocks, CORDAFINA_BLOCK_WORDS,
                                           (const uint8_t *)own, strlen(own),
                                           reply, sizeof reply);
        if (cordafina_refusal(answer) != CORDAFINA_TAKEN) {
            fprintf(stderr, "refused: %s\n", cordafina_refusal_text(cordafina_refusal(answer)));
            return 1;
        }
        printf("%s\n  %.*s\n", messages[i], (int)cordafina_length(answer), (const char *)reply);
        printf("  L/1/5 stands in context %u\n", (unsigned)table[CORDAFINA_LINE(1, 5)]);
        uint64_t map = cordafina_map(LINES, table);
        printf("  ephemerals in use: %u, next: R/%u\n", (unsigned)cordafina_in_use(map),
               (unsigned)cordafina_lowest_absent(map));
        uint64_t contexts = cordafina_contexts(LINES, table, CORDAFINA_TABLE_WORDS(LINES), text, sizeof text);
        printf("%.*s", (int)cordafina_length(contexts), (const char *)text);
    }
    return 0;
}
