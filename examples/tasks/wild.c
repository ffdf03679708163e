// Fills a list in the heap, shows its sum, and then calls the function that a null pointer is said to point to: word 0, in
// the quarter of another task. Linked for any task but 0.
//
// Output: 1 + 2 + .. + 20 is 210 (0xD2). Then the task ends, since it went to a word that is not in its quarter.

#include <avr/io.h>
#include <stdlib.h>

struct node {
    uint8_t number;
    struct node *next;
};

static void (*volatile then)(void) = NULL;

int main(void) {
    struct node *first = NULL;
    uint8_t sum = 0;
    for (uint8_t number = 1; number <= 20; number++) {
        struct node *node = malloc(sizeof *node);
        if (node == NULL) {
            return 1;
        }
        node->number = number;
        node->next = first;
        first = node;
    }
    for (struct node *node = first; node != NULL; node = node->next) {
        sum += node->number;
    }
    PORTA = sum;
    then();
}
