/* A fuzz target over the C boundary: any bytes in, guard pages and canaries around them, and what must hold of every answer. */
#include "../c/saltwhistle.h"

#include <stdio.h>
#include <stdlib.h>
#include <string.h>
#include <sys/mman.h>

enum { MOST = 4096, PAGE = 4096, PAGES = 3 };

typedef struct saltwhistle_answer answer;
typedef answer (*rewriting)(const uint8_t *, size_t, uint8_t *, size_t);

/* The library carries no counters of its own: what it answered says where it went. */
__attribute__((section("__libfuzzer_extra_counters"))) static uint8_t counters[1 << 14];

static void count(unsigned operation, answer a)
{
    counters[(operation << 12 | a.number << 8 | (a.place & 15) << 4 | (a.value & 15)) & ((1 << 14) - 1)] = 1;
}

static void hold(int fact, const char *what)
{
    if (!fact) {
        fprintf(stderr, "fuzz: does not hold: %s\n", what);
        abort();
    }
}

/* Room that ends where a page begins that nobody may touch. */
static uint8_t *guarded(void)
{
    uint8_t *room = mmap(NULL, (PAGES + 1) * PAGE, PROT_READ | PROT_WRITE, MAP_PRIVATE | MAP_ANONYMOUS, -1, 0);
    hold(room != MAP_FAILED, "mmap gives room");
    hold(mprotect(room + PAGES * PAGE, PAGE, PROT_NONE) == 0, "mprotect guards it");
    return room + PAGES * PAGE;
}

static void refused(answer a, const uint8_t *text, size_t size)
{
    hold(a.value == 0, "a refusal has no value");
    if (a.number == 3)
        hold(a.place < size && text[a.place] >= '0' && text[a.place] <= '9', "refusal 3 names a digit");
    else
        hold(a.place == 0, "every other refusal has place 0");
}

/* Writes into room of this many bytes, and looks at every byte of it. */
static answer rewritten(rewriting rewrite, const uint8_t *text, size_t size, uint8_t *end, size_t room)
{
    uint8_t *output = end - room;
    answer a;

    memset(end - MOST - 64, 0xA5, MOST + 64);
    a = rewrite(text, size, output, room);
    hold(a.number == 0 ? a.value <= room : a.value == 0, "the text lies in the room");
    for (const uint8_t *b = end - MOST - 64; b < end; b++)
        hold(*b == 0xA5 || (b >= output && b < output + a.value), "no byte beside the text is changed");
    if (a.number != 0 && a.number != 6)
        refused(a, text, size);
    return a;
}

int LLVMFuzzerTestOneInput(const uint8_t *data, size_t size)
{
    static const rewriting rewritings[] = {saltwhistle_shortest, saltwhistle_noref};
    static uint8_t *text_end, *output_end, *again_end;
    uint8_t *text;
    answer check, width;

    if (text_end == NULL) {
        text_end = guarded();
        output_end = guarded();
        again_end = guarded();
    }
    if (size > 2 * MOST)
        return 0;
    text = text_end - size;
    memcpy(text, data, size);

    check = saltwhistle_check(text, size);
    count(0, check);
    hold(check.value == 0 && (check.number != 1) == (size <= MOST), "1 exactly for a text that is too long");
    if (check.number != 0)
        refused(check, text, size);

    for (unsigned i = 0; i < 2; i++) {
        answer a = rewritten(rewritings[i], text, size, output_end, MOST);
        count(i + 1, a);
        hold(a.number == check.number && a.place == check.place, "what is read is written, what is refused is refused alike");
        if (a.number == 0) {
            const uint8_t *output = output_end - MOST;
            answer again = rewritten(saltwhistle_shortest, output, a.value, again_end, MOST);
            hold(again.number == 0 && again.value == a.value && memcmp(again_end - MOST, output, a.value) == 0,
                 "what was written is its own shortest text");
            hold(i == 1 || a.value <= size, "the shortest text is no longer");
            hold(rewritten(rewritings[i], text, size, again_end, a.value - 1).number == 6, "a byte too little is no room");
            hold(rewritten(rewritings[i], text, size, again_end, a.value).number == 0, "room for the text is enough");
        }
    }

    width = saltwhistle_width(text, size);
    count(3, width);
    if (check.number != 0)
        hold(width.number == check.number && width.place == check.place && width.value == 0, "width refuses what check refuses");
    else
        hold(width.number == 0 ? width.value >= 1 && width.value <= UINT32_MAX : width.number == 7, "a width, or 7");
    return 0;
}
