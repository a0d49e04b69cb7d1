/* Smooths the heights on standard input, whole numbers with white space between, one a line:

       cc -Ibindings examples/c/smooth.c target/lib/libtrufolmesca.a -o smooth && seq 9 | ./smooth 3

   The status is 0; 1 where a number refuses, which standard error then has in words; and 2 where a
   word is no height, or there are more than the program has room for. */
#include <inttypes.h>
#include <stdio.h>
#include <stdlib.h>

#include <trufolmesca.h>

enum { ROOM = 100000 };

/* The next word as a number from 0 to a bound; -1 behind the last word, and -2 where it is none. */
static long next_number(FILE *from, long most) {
    char word[16], *end;
    if (fscanf(from, "%15s", word) != 1) return -1;
    long number = strtol(word, &end, 10);
    return *end || number < 0 || number > most ? -2 : number;
}

int main(int argc, char **argv) {
    static uint16_t scan[ROOM];
    size_t n = 0;
    long height = 0;
    while (n < ROOM && (height = next_number(stdin, UINT16_MAX)) >= 0) scan[n++] = (uint16_t)height;
    if (argc != 2 || height != -1) {
        fprintf(stderr, "usage: smooth WINDOW < HEIGHTS, at most %d from 0 to %d\n", ROOM - 1, UINT16_MAX);
        return 2;
    }
    uint32_t number = trufolmesca_smooth_over(scan, n, (uint32_t)strtoul(argv[1], NULL, 10));
    if (number != TRUFOLMESCA_ANSWER) {
        fprintf(stderr, "%" PRIu32 ": %s\n", number, trufolmesca_word(number));
        return 1;
    }
    for (size_t i = 0; i < n; ++i) printf("%" PRIu16 "\n", scan[i]);
    return 0;
}
