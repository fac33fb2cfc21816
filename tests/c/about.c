/* The version of the library that runs must be the header's. Then every number that has a text, with it. */
#include <stdio.h>
#include <string.h>
#include <wedgepetal.h>

int main(void)
{
    const char *none = wedgepetal_refusal_text(UINT32_MAX);
    uint32_t number;
    if (strcmp(wedgepetal_version(), WEDGEPETAL_VERSION) != 0) {
        fprintf(stderr, "the library is version %s, the header %s\n", wedgepetal_version(), WEDGEPETAL_VERSION);
        return 1;
    }
    for (number = 0; number < 1000; number++) {
        const char *text = wedgepetal_refusal_text(number);
        if (strcmp(text, none) != 0) {
            printf("%u %s\n", (unsigned)number, text);
        }
    }
    return 0;
}
