/*
 * How much stack the library's functions use, measured: each call runs on a stack of its own that was painted
 * before, and what lies below the lowest byte that changed was not used. Held to CORDAFINA_STACK_BYTES and
 * CORDAFINA_PLAIN_STACK_BYTES.
 *
 *     stack MIX SESSION..      beside the messages below those of rust/bench/mix and of sessions, one a line
 */
#define _XOPEN_SOURCE 600
#include <stdio.h>
#include <string.h>
#include <ucontext.h>

#include "cordafina.h"

enum { ROOM = 1 << 17, PAINT = 0xA5, LINE = 1 << 16 };

static uint8_t stack[ROOM];
static ucontext_t here, there;
static void (*callee)(void);

static void run(void)
{
    callee();
}

/* The bytes of stack that a call uses, its caller `run` and the switch counted in. */
static size_t used(void (*f)(void))
{
    size_t low = 0;
    memset(stack, PAINT, sizeof stack);
    callee = f;
    getcontext(&there);
    there.uc_stack.ss_sp = stack;
    there.uc_stack.ss_size = sizeof stack;
    there.uc_link = &here;
    makecontext(&there, run, 0);
    swapcontext(&here, &there);
    while (low < ROOM && stack[low] == PAINT) {
        low++;
    }
    return ROOM - low;
}

static const char own[] = "[10.0.0.9]";
static uint32_t table[CORDAFINA_TABLE_WORDS(CORDAFINA_MOST_LINES)];
static uint32_t blocks[CORDAFINA_BLOCK_WORDS];
static uint8_t reply[CORDAFINA_REPLY_BYTES];
static uint8_t out[CORDAFINA_OUTPUT_BYTES];
static uint32_t cells[CORDAFINA_MAP_CELLS];
static uint32_t lines, loaded;
static const char *text;
static size_t length;
static const char *dialled;

static void nothing(void)
{
}

/* Kept replies: none before a message, and its own when it is sent again. */
static uint32_t room_words[CORDAFINA_ROOM_WORDS];
static uint8_t room_bytes[CORDAFINA_ROOM_BYTES];

static void answer(void)
{
    cordafina_answer(lines, (const uint8_t *)text, length, table, CORDAFINA_TABLE_WORDS(lines), room_words,
                     CORDAFINA_ROOM_WORDS, room_bytes, sizeof room_bytes, blocks, CORDAFINA_BLOCK_WORDS, (const uint8_t *)own,
                     sizeof own - 1, reply, sizeof reply);
}

static void contexts(void)
{
    cordafina_contexts(lines, table, CORDAFINA_TABLE_WORDS(lines), out, sizeof out);
}

static void texts(void)
{
    cordafina_text_side((const uint8_t *)text, length, 1);
    cordafina_text((const uint8_t *)text, length, 1);
    cordafina_text_name((const uint8_t *)text, length, 1);
}

static uint32_t spare[CORDAFINA_TABLE_WORDS(CORDAFINA_MOST_LINES)];
static size_t row_length;

static void write_row(void)
{
    row_length = cordafina_length(cordafina_write_row(lines, table, CORDAFINA_TABLE_WORDS(lines), out, sizeof out));
}

static void read_row(void)
{
    cordafina_read_row(lines, out, row_length, spare, CORDAFINA_TABLE_WORDS(lines));
}

static void questions(void)
{
    cordafina_lowest_absent(cordafina_map(lines, table));
    cordafina_in_use(cordafina_map(lines, table));
    cordafina_packet(lines, table, CORDAFINA_TABLE_WORDS(lines), blocks, CORDAFINA_BLOCK_WORDS, 1, 5, 3);
}

static void load(void)
{
    loaded = cordafina_load_map((const uint8_t *)text, length, 0, 1, cells);
}

static void dial_map(void)
{
    cordafina_dial_map(loaded, cells, (const uint8_t *)dialled, strlen(dialled));
}

static void dial(void)
{
    cordafina_dial((const uint8_t *)text, length, 0, 1, (const uint8_t *)dialled, strlen(dialled));
}

static void plain(void)
{
    cordafina_dial_plain((const uint8_t *)text, length, 0, 1, (const uint8_t *)dialled, strlen(dialled));
}

static const char *const messages[] = {
    "!/1 [10.0.0.1] T=1{C=${A=L/1/*}}",
    "!/1 [10.0.0.1] T=1{C=1{PR=4,TP{L/1/1,L/1/8,OW,L/1/2,L/1/3,IS},EG,TP{L/1/8,L/1/1,BW,L/1/1,L/1/9,BW}}}",
    "!/1 [10.0.0.1] T=1{C=1{TP{L/1/1,L/1/8,OW,L/1/2,L/1/3,IS,L/1/8,L/1/1,BW},S=L/1/4}}",
    "!/1 [10.0.0.1] T=1{C=${PR=4,EG,A=L/1/5{M{O{MO=SR},TS{SI=TE}}},A=$}}",
    "!/1 [10.0.0.1] T=1{C=-{MF=*}}",
    "!/1 [10.0.0.1] T=1{C=-{MF=L/1/1{a{a{a{a{a{a{a{a}}}}}}}}}}",
    "!/1 [10.0.0.1] T=1{C=-{MF=L/1/1{a{a{a{a{a{a{a{a{a}}}}}}}}}}}",
    "!/1 [10.0.0.1] T=1{C=-{MF=L/1/1{M{O{a{a{a{a{a{a/b=\"c\"}}}}}}}}}}",
    "!/1 [10.0.0.1] T=1{C=1{MV=*,S=*}}",
    "!/1 [10.0.0.1] T=1{C=1{O-S=*,O-S=ROOT,O-A=$,O-MV=R/*}}T=2{C=1{PR=3,EG}}T=3{C=2{W-A=$}}",
    "!/1 [10.0.0.1] T=1{C=${A=${M{O{MO=SR},L{v=0\nc=IN IP4 10.0.0.9\nm=audio 4000 RTP/AVP 8\n},R{}}},A=L/1/1}}",
    "!/1 [10.0.0.1] T=1{C=-{MF=*}}K{1,3-9,4294967295}T=1{C=5{S=*}}TransactionResponseAck { 2 , 1-1 }",
    "!/1 [10.0.0.1] K{1-4294967295}",
    ";a comment\r\n MEGACO / 1",
    "noise",
};

static const char *const maps[] = {
    "(0|00|[1-7]xxx|8xxxxxxx|Fxxxxxxx|Exx|91xxxxxxxxxx|9011x.)",
    "x.x.x.x.",
    "(x.x.x.x.x.x.x.x.x.x.x.x.x.x.x.x.x.x.x.x.x.x.x.x.x.x.x.x.x.x.x.x.|x.x.x.x.x.x.x.x.x.x.x.x.x.x.x.x.x.x.x.x.x.x.x.x.x.x.x.x.x.x.x.x.)",
    "[1-79A-C][0-9]xxxxxxxxxxxxxxxxxxxxxxxxxxxxxxx",
};

static size_t most(size_t a, size_t b)
{
    return a < b ? b : a;
}

/* The most that was used by the call, the contexts, the texts, rows, and the questions about the map with a packet; how many messages were answered. */
static size_t by_call, by_contexts, by_texts, by_rows, by_questions, calls;

static void message(const char *bytes, size_t count)
{
    text = bytes;
    length = count;
    memset(room_words, 0, sizeof room_words);
    by_call = most(by_call, used(answer));
    by_call = most(by_call, used(answer));
    by_contexts = most(by_contexts, used(contexts));
    by_texts = most(by_texts, used(texts));
    by_rows = most(by_rows, used(write_row));
    by_rows = most(by_rows, used(read_row));
    by_questions = most(by_questions, used(questions));
    calls++;
}

int main(int count, char **files)
{
    static const char *const strings[] = {"", "8555123", "01234567890123456789012345678901", "A"};
    static char line[LINE];
    size_t base = used(nothing), first = 0, second = 0, size;

    for (lines = 1; lines <= CORDAFINA_MOST_LINES; lines++) {
        memset(table, 0, sizeof table);
        for (size_t i = 0; i < sizeof messages / sizeof messages[0]; i++) {
            message(messages[i], strlen(messages[i]));
        }
    }
    lines = 8;
    for (int i = 1; i < count; i++) {
        FILE *file = fopen(files[i], "r");
        if (file == NULL) {
            printf("stack: FAILED, no file %s\n", files[i]);
            return 1;
        }
        memset(table, 0, sizeof table);
        /* Each message of the mix has its length before it. */
        while (i == 1 && fscanf(file, "%4zu%*c", &size) == 1 && fread(line, 1, size + 1, file) == size + 1) {
            message(line, size);
        }
        while (i > 1 && fgets(line, sizeof line, file) != NULL) {
            message(line, strcspn(line, "\n"));
        }
        fclose(file);
    }
    for (size_t i = 0; i < sizeof maps / sizeof maps[0]; i++) {
        for (size_t j = 0; j < sizeof strings / sizeof strings[0]; j++) {
            text = maps[i];
            length = strlen(text);
            dialled = strings[j];
            first = most(first, most(used(load), used(dial_map)));
            first = most(first, used(dial));
            second = most(second, used(plain));
        }
    }
    printf("stack: of %zu calls the deepest %zu bytes, contexts %zu, texts %zu, rows %zu, the map and a packet %zu, digit maps %zu, the plain matcher %zu;",
           calls, by_call, by_contexts, by_texts, by_rows, by_questions, first, second);
    printf(" %zu of each are this test's\n", base);
    if (most(most(most(by_call, by_contexts), by_rows), most(most(by_texts, by_questions), first)) > CORDAFINA_STACK_BYTES
        || second > CORDAFINA_PLAIN_STACK_BYTES) {
        printf("stack: FAILED, more than the %d bytes, for the plain matcher %d, that the headers say\n", CORDAFINA_STACK_BYTES,
               CORDAFINA_PLAIN_STACK_BYTES);
        return 1;
    }
    /* A test that sees nothing would pass. */
    if (by_call < base + 2049 || by_rows < base + 8072 || calls < 2688) {
        printf("stack: FAILED, an action's buffer of 2,049 bytes or a row's 2,018 words were not seen, or some messages were not\n");
        return 1;
    }
    return 0;
}
