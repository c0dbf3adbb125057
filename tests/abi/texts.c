/* Writes the words of each number below 100. */
#include <iflughan.h>
#include <stdio.h>

int main(void) {
    for (uint32_t number = 0; number < 100; number++) printf("%u %s\n", (unsigned)number, iflughan_refusal_text(number));
    return 0;
}
