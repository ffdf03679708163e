// Goes down a path of folders that leads back to its beginning, with a call and a buffer of 100 bytes for each
// folder, until the stack has no room.
//
// Output: the first letter of each folder, "u", "l", "b" in turn (75, 6C, 62), nine of them. The call of main and
// its call of visit take 4 bytes from 0x10FF down. visit takes 106 for each folder: 4 saved registers, the buffer,
// and the return address of the next visit. So the tenth has its stack pointer at 0x10FB - 9 * 106 - 104 = 0x0CD9,
// below the stack window, and its call of strcpy ends in a stack fault there.

#include <avr/io.h>
#include <string.h>

struct folder {
    char name[4];
    struct folder *inside;
};

static struct folder usr, lib, bin;

static struct folder usr = {"usr", &lib};
static struct folder lib = {"lib", &bin};
static struct folder bin = {"bin", &usr};

static void visit(const struct folder *folder) {
    char path[100];
    strcpy(path, folder->name);
    PORTA = path[0];
    visit(folder->inside);
    PORTA = path[0];
}

int main(void) {
    visit(&usr);
}
