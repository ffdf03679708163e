// Averages eight conversions of the analog to digital converter.
//
// Output: the script's results are 500, 510, 490, 505, 495, 520, 480 and 504. Their sum is 4,004, and an
// eighth of it is 500, or 0x01F4: the high byte on port C, the low one on port D.
//
// Four polls make one conversion: it is started (SBI reads ADCSRA), it is asked whether it is done (SBIC reads
// ADCSRA once, since a conversion takes no time here), and ADCL and ADCH are read. So each result of the script
// comes four polls behind the one before.

#include <avr/io.h>

static uint16_t convert(void) {
    ADCSRA |= _BV(ADSC);
    loop_until_bit_is_clear(ADCSRA, ADSC);
    return ADC;
}

int main(void) {
    uint16_t sum = 0;
    ADMUX = _BV(REFS0);
    ADCSRA = _BV(ADEN) | _BV(ADPS2) | _BV(ADPS1);
    for (uint8_t i = 0; i < 8; i++) {
        sum += convert();
    }
    PORTC = sum / 8 >> 8;
    PORTD = sum / 8 & 0xFF;
}
