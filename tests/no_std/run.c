/* Calls the library without the standard library: status 0 if it found the two entries that it wrote. */
#include <stdint.h>
#include <stdio.h>

uint64_t entries(void);

int main(void) {
    uint64_t found = entries();
    printf("%d entries\n", (int)found);
    return found == 2 ? 0 : 1;
}
