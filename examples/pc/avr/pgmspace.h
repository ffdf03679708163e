// Flash is memory like any other on a PC.

#ifndef PC_AVR_PGMSPACE_H
#define PC_AVR_PGMSPACE_H

#include <string.h>

#define PROGMEM
#define pgm_read_byte(address) (*(address))
#define pgm_read_word(address) (*(address))
#define memcpy_P memcpy

#endif
