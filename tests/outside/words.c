/* The header's list of refusals: 1 to 9 and 11 to 19, once and in order, each with a name that is that number and words of its own. */
#include "test.h"
#include <string.h>

struct refusal {
    unsigned number, constant;
    const char *name, *words;
};

#define AS_ROW(number, name, words) {number, name, #name, words},
static const struct refusal list[] = {ZAQ_REFUSALS(AS_ROW)};
enum { LISTED = sizeof list / sizeof *list };

static int is_alone(unsigned k)
{
    for (unsigned e = 0; e < k; e++)
        if (strcmp(list[e].words, list[k].words) == 0 || strcmp(list[e].name, list[k].name) == 0)
            return 0;
    return 1;
}

static int is_a_refusal(uint32_t number)
{
    return (number >= 1 && number <= 9) || (number >= 11 && number <= 19);
}

void test_words(void)
{
    uint32_t number = 0;
    check(LISTED == 18, "18 refusals are listed");
    for (unsigned k = 0; k < LISTED; k++) {
        do
            number++;
        while (!is_a_refusal(number) && number < 300);
        about_number("refusal", number);
        check(list[k].number == number && list[k].constant == number, "numbers and constants are 1 to 9 and 11 to 19");
        check(strncmp(list[k].name, "ZAQ_", 4) == 0 && strlen(list[k].words) > 10 && is_alone(k), "each has a name and words of its own");
        check(strcmp(zaq_words(number), list[k].words) == 0, "zaq_words gives the list's words");
    }
    check(ZAQ_ACCEPTED == 0 && strcmp(zaq_words(0), "no refusal") == 0, "0 is no refusal");
    for (number = 1; number < 300; number++)
        if (!is_a_refusal(number))
            check(strcmp(zaq_words(number), zaq_words(0xFFFFFFFF)) == 0, "other numbers have no words of their own");
}
