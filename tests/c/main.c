/* The C interface, called as a board or an app calls it. Prints what was checked; the status is 1 where something fails. With the word
   `threads` only the threads run. */
#include "common.h"
#include <stdio.h>
#include <string.h>

int main(int count, char **words)
{
    if (count < 2 || strcmp(words[1], "threads") != 0) {
        test_operations();
        test_refusals();
    }
    test_threads();
    printf("%lu checks, %lu failed\n", checks_made, checks_failed);
    return checks_failed != 0;
}
