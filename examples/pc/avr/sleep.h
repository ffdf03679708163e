// A program that sleeps with interrupts off is at its end.
#include <stdlib.h>
#define sleep_cpu() exit(0)
