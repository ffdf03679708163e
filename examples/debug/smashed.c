// Shows the lengths of two greetings on port A, 0x0A and 0x12, and then goes astray: the second name is longer than the array has room
// for, and its end lies on the return address.

#include <avr/io.h>
#include <string.h>

__attribute__((noinline)) static void greet(const char *name) {
    char text[12] = "Hello, ";
    strcat(text, name);
    PORTA = strlen(text);
}

int main(void) {
    greet("Ann");
    greet("Bartholomew");
}
