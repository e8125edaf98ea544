/* The words of crew.h: a line for each number of a byte, with the group that crew_group answers, its word, and the text of the refusal. */
#include <crew.h>

#include <stdio.h>

int main(void) {
    int number;
    for (number = 0; number < 256; number++) {
        uint8_t group = crew_group((uint8_t)number);
        printf("%d %d %s %s\n", number, group, crew_group_text(group), crew_refusal_text((uint8_t)number));
    }
    return 0;
}
