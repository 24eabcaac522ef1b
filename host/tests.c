/* The boundary as a C program meets it. Answers 0 if every check holds. */
#include <stdio.h>
#include <string.h>

#include "check.h"

static const struct { const char *name; void (*run)(void); } GROUPS[] = {
    {"books", test_books},
    {"cards", test_cards},
    {"refusals", test_refusals},
    {"round trips", test_round_trips},
    {"margins", test_margins},
    {"pictures", test_pictures},
    {"not written", test_picture_refusals},
    {"damaged", test_damaged},
    {"visible", test_visible},
    {"rooms", test_rooms},
    {"short calls", test_short},
    {"threads", test_threads},
};

int main(int argc, char **argv)
{
    unsigned long failures = 0;
    tables();
    for (size_t k = 0; k < sizeof GROUPS / sizeof *GROUPS; k++) {
        if (argc > 1 && strcmp(argv[1], GROUPS[k].name) != 0)
            continue;
        GROUPS[k].run();
        failures = check_group(GROUPS[k].name);
    }
    printf("%lu failed\n", failures);
    return failures != 0;
}
