/* Prints for each argument its shortest text, its reference-free text and its width, or the refusal's number and place. */
#include "saltwhistle.h"

#include <stdio.h>
#include <string.h>

static void show_text(const char *name, struct saltwhistle_answer a, const uint8_t *output)
{
    if (a.number == 0)
        printf("  %-9s %.*s\n", name, (int)a.value, (const char *)output);
    else
        printf("  %-9s refused: %llu, place %llu\n", name, (unsigned long long)a.number, (unsigned long long)a.place);
}

int main(int count, char **arguments)
{
    uint8_t output[4096];

    for (int i = 1; i < count; i++) {
        const uint8_t *text = (const uint8_t *)arguments[i];
        size_t length = strlen(arguments[i]);
        struct saltwhistle_answer width;

        printf("%s\n", arguments[i]);
        show_text("shortest", saltwhistle_shortest(text, length, output, sizeof output), output);
        show_text("noref", saltwhistle_noref(text, length, output, sizeof output), output);
        width = saltwhistle_width(text, length);
        if (width.number == 0)
            printf("  %-9s %llu\n", "width", (unsigned long long)width.value);
        else
            printf("  %-9s refused: %llu, place %llu\n", "width", (unsigned long long)width.number, (unsigned long long)width.place);
    }
    return 0;
}
