/* Calls the staticlib of this folder. */
#include <stddef.h>
#include <stdint.h>
#include <stdio.h>
#include <string.h>

uint64_t condition(uint64_t a_register, size_t length);

int main(void)
{
    uint64_t words = strlen("refused 11 at offset 5 after 0 steps: the bytes end before an end instruction");
    int is_right = condition(42, 7) == 1 && condition(41, 7) == 0 && condition(42, 6) == words;

    puts(is_right ? "as expected" : "not as expected");
    return is_right ? 0 : 1;
}
