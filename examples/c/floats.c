// Prints a table of roots, powers and logarithms with the formats of floats, and reads numbers back. The library's
// part in it is some 10 KB, executed in turn for each line: more code than the code pool holds at a time.
//
// Output: over the serial line
//
//        x     root    square  inverse      e^x   sin x    ln x    x^1.5
//      0.25   0.5000 6.250e-02        4     1.28  0.2474 -1.3863   0.1250
//      2.00   1.4142 4.000e+00      0.5     7.39  0.9093  0.6931   2.8284
//      5.00   2.2361 2.500e+01      0.2   148.41 -0.9589  1.6094  11.1803
//     read 2.5 and -1250, 99 of 0x63
//
// as any table of functions has them.

#include <avr/io.h>
#include <math.h>
#include <stdio.h>

static void print(const char *text) {
    while (*text != 0) {
        UDR0 = *text++;
    }
}

int main(void) {
    static const float numbers[] = {0.25, 2, 5};
    char line[80];
    float first, second;
    unsigned third;
    print("   x     root    square  inverse      e^x   sin x    ln x    x^1.5\n");
    for (uint8_t i = 0; i < 3; i++) {
        float x = numbers[i];
        sprintf(line, "%5.2f %8.4f %.3e %8g %8.2f %7.4f ", x, sqrt(x), x * x, 1 / x, exp(x), sin(x));
        print(line);
        sprintf(line, "%7.4f %8.4f\n", log(x), pow(x, 1.5));
        print(line);
    }
    sscanf("2.5 -1.25e3 63", "%f %f %x", &first, &second, &third);
    sprintf(line, "read %.1f and %.0f, %u of 0x%x\n", first, second, third, third);
    print(line);
}
