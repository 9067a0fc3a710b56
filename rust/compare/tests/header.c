/* Prints what the header says of itself: its version twice, and the text of each number, 0 to 300. */
#include <stdio.h>

#include "selquorin.h"

int main(void) {
    printf("%s\n", SELQUORIN_VERSION);
    printf("%d.%d.%d\n", SELQUORIN_VERSION_MAJOR, SELQUORIN_VERSION_MINOR, SELQUORIN_VERSION_PATCH);
    for (unsigned number = 0; number <= 300; number++) {
        printf("%s\n", selquorin_message(number));
    }
    return 0;
}
