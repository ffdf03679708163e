// Adds the numbers of three texts, and then goes astray: the third is longer than the array that it is copied to, and its end lies on the
// return address.

#include <avr/io.h>
#include <stdlib.h>
#include <string.h>

static int total;

__attribute__((noinline)) static void add(const char *text) {
    char digits[6];
    strcpy(digits, text);
    total += atoi(digits);
}

int main(void) {
    add("17");
    add("4");
    add("300 rounds");
    PORTA = total;
}
