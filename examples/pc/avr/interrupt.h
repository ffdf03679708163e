// No interrupts come on a PC.
#define cli()
