// Runs a program on the core of simavr, with the memory and the devices that docs/MOTE.md gives it, and prints what
// tkernel is to print: the device lines and the stop line. So the examples' outputs are compared with a machine
// that has no part in common with tkernel, neither code nor authors of the instructions.
//
//     cc -O2 -o reference reference.c -lsimavr
//     ./reference [--watch FOLDER] STEPS QUANTUM HEX-FILE [SCRIPT-FILE]
//
// Into the files lines, state, memory and profile of FOLDER it writes what the views of tkwatch are to show before the stop
// line: of `state` all but how many slots there are, and the operations on flash. So it does for each line of FOLDER's file
// words that has a view with its own words, as "trace 100 5", "visits 0x0000 0x0012", "changes 0x0103 4" and "accesses 0x0000 65536".
//
// It knows the ends halted, asleep, spent, wild, io and stack, and no bound of pages stored to.
// It makes no pages, so lines of failing flash in the script say nothing to it. One step of simavr's core it puts right: a skip
// over an ADIW or SBIW whose word looks like a JMP or CALL in some of its bits, which that core takes for two words.

#include <limits.h>
#include <simavr/sim_avr.h>
#include <simavr/sim_core.h>
#include <simavr/sim_hex.h>
#include <stdbool.h>
#include <stdio.h>
#include <stdlib.h>
#include <string.h>

enum { EVENTS = 65536, WINDOW_FIRST = 0x0D00, WINDOW_LAST = 0x10FF, EIMSK_ADDRESS = 0x59, SLEEP = 0x9588 };

struct event {
    unsigned long poll;
    char kind[8];
    unsigned value;
};

static struct event events[EVENTS];
static int event_count;
static uint8_t received[EVENTS];

// What came of the script, and was read.
struct inputs {
    unsigned long polls;
    int next_event, received_count, received_taken;
    unsigned converted;
    unsigned pending; // bit k: an int k that came and was not taken
    uint8_t pins[4];
};
static struct inputs in;

// What an instruction that stops the program may have changed of the core and its registers.
struct core {
    struct inputs in;
    avr_flashaddr_t pc;
    uint8_t data[0x100], sreg[8];
};

static int refused = -1; // the device register that the last step would have touched and may not

// What is watched.
static FILE *told_lines;              // each line behind its step, where this is asked for
static unsigned long steps;           // that were done
static unsigned long begun[0x10000];  // how many steps began at each word address
static bool stored[0x100];            // the pages of 256 bytes that were stored to
static FILE *told_trace, *told_visits, *told_changes, *told_accesses; // where these views are asked for
static unsigned long first_row, row_count;
static bool is_place[0x10000];
static unsigned watched_at, watched_count;
static uint8_t watched[64]; // what stood in the watched bytes behind the step before
static unsigned accessed_at, accessed_count;
static uint8_t given; // what the last read of a device register gave

// A device register: whether it is read by a poll, read or written at all, and the name of its lines.
static const struct device {
    uint8_t address;
    bool polled, readable, writable;
    const char *line;
} devices[] = {
    {0x24, true, true, false, NULL},   {0x25, true, true, false, NULL},   {0x26, true, true, true, NULL},
    {0x27, false, true, true, NULL},   {0x29, false, true, true, NULL},   {0x2A, false, true, true, NULL},
    {0x2B, true, true, true, NULL},    {0x2C, true, true, true, "UART0"}, {0x30, true, true, false, NULL},
    {0x31, false, true, true, "DDRD"}, {0x32, false, true, true, "PORTD"}, {0x33, true, true, false, NULL},
    {0x34, false, true, true, "DDRC"}, {0x35, false, true, true, "PORTC"}, {0x36, true, true, false, NULL},
    {0x37, false, true, true, "DDRB"}, {0x38, false, true, true, "PORTB"}, {0x39, true, true, false, NULL},
    {0x3A, false, true, true, "DDRA"}, {0x3B, false, true, true, "PORTA"}, {0x52, true, true, true, NULL},
    {0x53, false, true, true, NULL},   {0x55, false, true, true, NULL},   {0x59, false, true, true, NULL},
    {0x5A, false, true, true, NULL},   {0x5B, false, true, true, NULL},   {0x6A, false, true, true, NULL},
    {0x90, false, true, true, NULL},   {0x95, false, true, true, NULL},
};

static const struct device *device_at(unsigned address) {
    for (size_t i = 0; i < sizeof devices / sizeof *devices; i++) {
        if (devices[i].address == address) {
            return &devices[i];
        }
    }
    return NULL;
}

static void take_events(void) {
    for (; in.next_event < event_count && events[in.next_event].poll <= in.polls; in.next_event++) {
        const struct event *event = &events[in.next_event];
        if (strcmp(event->kind, "uart") == 0) {
            received[in.received_count++] = event->value;
        } else if (strcmp(event->kind, "adc") == 0) {
            in.converted = event->value;
        } else if (strcmp(event->kind, "int") == 0) {
            in.pending |= 1u << event->value;
        } else {
            in.pins[event->kind[3] - 'a'] = event->value;
        }
    }
}

static void poll(void) {
    in.polls++;
    take_events();
}

static unsigned enabled(const avr_t *avr) {
    return in.pending & avr->data[EIMSK_ADDRESS];
}

// Whether the part goes on behind a SLEEP: the count of polls rises to the next event that wakes it. If not, nothing changes.
static bool wakes(const avr_t *avr) {
    struct inputs before = in;
    while (!enabled(avr) && in.next_event < event_count) {
        unsigned long at = events[in.next_event].poll;
        in.polls = at > in.polls ? at : in.polls;
        take_events();
    }
    if (avr->sreg[S_I] && enabled(avr)) {
        return true;
    }
    in = before;
    return false;
}

static uint8_t value_of(const avr_t *avr, avr_io_addr_t address) {
    switch (address) {
    case 0x24: return in.converted & 0xFF;
    case 0x25: return in.converted >> 8;
    case 0x26: return (avr->data[address] & ~0x40) | 0x10;
    case 0x2B: return in.received_taken < in.received_count ? 0xA0 : 0x20;
    case 0x2C: return in.received_taken < in.received_count ? received[in.received_taken++] : 0;
    case 0x30: return in.pins[3];
    case 0x33: return in.pins[2];
    case 0x36: return in.pins[1];
    case 0x39: return in.pins[0];
    case 0x52: return in.polls & 0xFF;
    default: return avr->data[address];
    }
}

static uint8_t on_read(avr_t *avr, avr_io_addr_t address, void *unused) {
    const struct device *device = device_at(address);
    if (device == NULL || !device->readable) {
        refused = address;
        return 0;
    }
    if (device->polled) {
        poll();
    }
    given = value_of(avr, address);
    return given;
}

static void on_write(avr_t *avr, avr_io_addr_t address, uint8_t value, void *unused) {
    const struct device *device = device_at(address);
    if (device == NULL || !device->writable) {
        refused = address;
        return;
    }
    if (device->line != NULL) {
        printf("%s 0x%02X\n", device->line, value);
        if (told_lines != NULL) {
            fprintf(told_lines, "step %lu %s 0x%02X\n", steps + 1, device->line, value);
        }
    }
    avr->data[address] = value;
}

// The byte outside the stack window that this instruction, or an interrupt before it, would touch first, or -1.
static int outside_window(unsigned word, bool interrupts, unsigned sp) {
    bool push = (word & 0xFE0F) == 0x920F, pop = (word & 0xFE0F) == 0x900F;
    bool call = (word & 0xFE0E) == 0x940E || (word & 0xF000) == 0xD000 || word == 0x9509;
    bool back = word == 0x9508 || word == 0x9518;
    unsigned bytes = interrupts ? 2 : push || pop ? 1 : call || back ? 2 : 0;
    for (unsigned i = 0; i < bytes; i++) {
        unsigned address = (!interrupts && (pop || back) ? sp + 1 + i : sp - i) & 0xFFFF;
        if (address < WINDOW_FIRST || address > WINDOW_LAST) {
            return address;
        }
    }
    return -1;
}

static unsigned word_at(const avr_t *avr, unsigned pc) {
    return avr->flash[2 * pc] | avr->flash[2 * pc + 1] << 8;
}

static bool is_jump_to_itself(const avr_t *avr, unsigned pc) {
    return word_at(avr, pc) == 0xCFFF || (word_at(avr, pc) == 0x940C && word_at(avr, pc + 1) == pc);
}

static unsigned stack_pointer(const avr_t *avr) {
    return avr->data[R_SPL] | avr->data[R_SPH] << 8;
}

static void push(avr_t *avr, uint8_t byte) {
    unsigned sp = stack_pointer(avr);
    avr->data[sp] = byte;
    avr->data[R_SPL] = (sp - 1) & 0xFF;
    avr->data[R_SPH] = (sp - 1) >> 8 & 0xFF;
}

// The interrupt of the lowest number: its vector is at the word address 2 * (number + 1).
static void interrupt(avr_t *avr) {
    unsigned pc = avr->pc / 2, number = 0;
    while (!(enabled(avr) >> number & 1)) {
        number++;
    }
    push(avr, pc & 0xFF);
    push(avr, pc >> 8);
    avr->sreg[S_I] = 0;
    in.pending &= ~(1u << number);
    avr->pc = 4 * (number + 1);
}

static struct core core_of(const avr_t *avr) {
    struct core core = {.in = in, .pc = avr->pc};
    memcpy(core.data, avr->data, sizeof core.data);
    memcpy(core.sreg, avr->sreg, sizeof core.sreg);
    return core;
}

static void put_back(avr_t *avr, const struct core *core) {
    in = core->in;
    avr->pc = core->pc;
    memcpy(avr->data, core->data, sizeof core->data);
    memcpy(avr->sreg, core->sreg, sizeof core->sreg);
}

static unsigned pair(const avr_t *avr, unsigned low) {
    return avr->data[low] | avr->data[low + 1] << 8;
}

// The data address that this instruction loads from or stores to, or -1: by the encodings of LD, LDD and LDS, ST, STD and STS.
// PUSH, POP and calls aren't among them.
static int named_address(const avr_t *avr, unsigned pc) {
    unsigned word = word_at(avr, pc), offset = (word & 7) | (word >> 7 & 0x18) | (word >> 8 & 0x20);
    if ((word & 0xD000) == 0x8000) {
        return (pair(avr, word & 8 ? 28 : 30) + offset) & 0xFFFF;
    }
    if ((word & 0xFC00) != 0x9000) {
        return -1;
    }
    switch (word & 15) {
    case 0x0: return word_at(avr, pc + 1);
    case 0x1: return pair(avr, 30);
    case 0x2: return (pair(avr, 30) - 1) & 0xFFFF;
    case 0x9: return pair(avr, 28);
    case 0xA: return (pair(avr, 28) - 1) & 0xFFFF;
    case 0xC:
    case 0xD: return pair(avr, 26);
    case 0xE: return (pair(avr, 26) - 1) & 0xFFFF;
    default: return -1;
    }
}

// Of such an instruction, whether it stores.
static bool stores(unsigned word) {
    return word & 0x0200;
}

// Whether an instruction may skip the next one: CPSE, SBRC, SBRS, SBIC and SBIS.
static bool is_skip(unsigned word) {
    return (word & 0xFC00) == 0x1000 || (word & 0xFC08) == 0xFC00 || (word & 0xFD00) == 0x9900;
}

// Whether it has a second word: LDS, STS, JMP and CALL.
static bool has_two_words(unsigned word) {
    return (word & 0xFC0F) == 0x9000 || word == 0x940C || word == 0x940E;
}

static bool is_heap(int address) {
    return address >= 0x100 && (address < WINDOW_FIRST || address > WINDOW_LAST);
}

// Executes the instruction at this address. Where it may not be, nothing changes.
static void execute(avr_t *avr, unsigned pc) {
    struct core before = core_of(avr);
    int to = stores(word_at(avr, pc)) ? named_address(avr, pc) : -1;
    avr->pc = word_at(avr, pc) == SLEEP ? avr->pc + 2 : avr_run_one(avr);
    if (is_skip(word_at(avr, pc)) && avr->pc == 2 * (pc + 3) && !has_two_words(word_at(avr, pc + 1))) {
        avr->pc -= 2;
    }
    if (refused >= 0) {
        put_back(avr, &before);
    } else if (is_heap(to)) {
        stored[to / 0x100] = true;
    }
}

static unsigned status_register(const avr_t *avr) {
    unsigned sreg = 0;
    for (unsigned i = 0; i < 8; i++) {
        sreg |= avr->sreg[i] << i;
    }
    return sreg;
}

static void tell_row(const avr_t *avr, FILE *out) {
    fprintf(out, "step %lu 0x%04X 0x%04X 0x%02X", steps, avr->pc / 2, stack_pointer(avr), status_register(avr));
    for (unsigned i = 0; i < 32; i++) {
        fprintf(out, " 0x%02X", avr->data[i]);
    }
    fprintf(out, "\n");
}

// Tells which of the watched bytes the step changed that began at this pc. Registers are no memory.
static void tell_changes(const avr_t *avr, unsigned pc, FILE *out) {
    for (unsigned i = 0; i < watched_count; i++) {
        unsigned address = watched_at + i;
        if (address >= 0x100 && avr->data[address] != watched[i]) {
            fprintf(out, "step %lu 0x%04X 0x%04X 0x%02X 0x%02X\n", steps, pc, address, watched[i], avr->data[address]);
            watched[i] = avr->data[address];
        }
    }
}

// How a step begins.
struct outset {
    unsigned pc, word, sp, sreg;
    int address; // that a load or store names, or -1
    bool interrupts;
};

static struct outset outset_of(const avr_t *avr, bool interrupts) {
    unsigned pc = avr->pc / 2;
    return (struct outset){pc, word_at(avr, pc), stack_pointer(avr), status_register(avr), named_address(avr, pc), interrupts};
}

static void tell_access(const struct outset *outset, const char *kind, unsigned address, uint8_t byte) {
    address &= 0xFFFF;
    if (address >= accessed_at && address - accessed_at < accessed_count) {
        fprintf(told_accesses, "step %lu 0x%04X %s 0x%04X 0x%02X 0x%02X\n", steps, outset->pc, kind, address, byte, outset->sreg);
    }
}

// What stands at a data address.
static uint8_t byte_at(const avr_t *avr, unsigned address) {
    return address == R_SREG ? status_register(avr) : avr->data[address & 0xFFFF];
}

// Tells which bytes a step that was made reached by address: of a store what stands there now, and of a load what the register has.
static void tell_accesses(const avr_t *avr, const struct outset *outset) {
    static const char *const bit_kinds[] = {"clear", "test", "set", "test"};
    unsigned word = outset->word, sp = outset->sp, io = 0x20 + ((word & 15) | (word >> 5 & 0x30)), low = 0x20 + (word >> 3 & 31);
    uint8_t loaded = avr->data[word >> 4 & 31], weight = 1 << (word & 7);
    if (outset->interrupts || (word & 0xFE0E) == 0x940E || (word & 0xF000) == 0xD000 || word == 0x9509) {
        const char *kind = outset->interrupts ? "interrupt" : "store";
        tell_access(outset, kind, sp, byte_at(avr, sp));
        tell_access(outset, kind, sp - 1, byte_at(avr, sp - 1));
    } else if (word == 0x9508 || word == 0x9518) {
        tell_access(outset, "load", sp + 1, byte_at(avr, sp + 1));
        tell_access(outset, "load", sp + 2, byte_at(avr, sp + 2));
    } else if ((word & 0xFE0F) == 0x920F) {
        tell_access(outset, "store", sp, byte_at(avr, sp));
    } else if ((word & 0xFE0F) == 0x900F) {
        tell_access(outset, "load", sp + 1, loaded);
    } else if ((word & 0xF800) == 0xB000) {
        tell_access(outset, "load", io, loaded);
    } else if ((word & 0xF800) == 0xB800) {
        tell_access(outset, "store", io, byte_at(avr, io));
    } else if ((word & 0xFC00) == 0x9800) {
        tell_access(outset, bit_kinds[word >> 8 & 3], low, word & 0x0100 ? given & weight : weight);
    } else if (outset->address >= 0) {
        bool is_store = stores(word);
        tell_access(outset, is_store ? "store" : "load", outset->address, is_store ? byte_at(avr, outset->address) : loaded);
    }
}

// Tells what is asked for behind so many steps, the last of which began so.
static void tell_step(const avr_t *avr, const struct outset *outset) {
    if (told_changes != NULL) {
        tell_changes(avr, outset->pc, told_changes);
    }
    if (told_accesses != NULL && steps > 0) {
        tell_accesses(avr, outset);
    }
    if (told_visits != NULL && is_place[avr->pc / 2]) {
        fprintf(told_visits, "step %lu 0x%04X\n", steps, avr->pc / 2);
    }
    if (told_trace != NULL && steps >= first_row && steps - first_row < row_count) {
        tell_row(avr, told_trace);
    }
}

static void run(avr_t *avr, unsigned image_words, unsigned long bound, unsigned long quantum) {
    unsigned long crossings = 0;
    bool due = false; // a checkpoint, or the end of a sleep, was the last step
    struct outset outset = outset_of(avr, false);
    tell_step(avr, &outset);
    for (;;) {
        unsigned pc = avr->pc / 2, word = word_at(avr, pc), next;
        bool interrupts = due && avr->sreg[S_I] && enabled(avr);
        int outside = outside_window(word, interrupts, stack_pointer(avr));
        outset = outset_of(avr, interrupts);
        if (pc >= image_words) {
            printf("fault wild 0x%04X", pc);
        } else if (steps == bound) {
            printf("spent");
        } else if (interrupts && outside < 0) {
            interrupt(avr);
            due = false;
            begun[pc]++;
            steps++;
            tell_step(avr, &outset);
            continue;
        } else if (!interrupts && word == SLEEP && !wakes(avr)) {
            printf("asleep 0x%04X", pc);
        } else if (!interrupts && is_jump_to_itself(avr, pc) && !avr->sreg[S_I]) {
            printf("halted 0x%04X", pc);
        } else if (outside >= 0) {
            printf("fault stack 0x%04X address 0x%04X", pc, outside);
        } else {
            execute(avr, pc);
            next = avr->pc / 2;
            if (refused < 0) {
                bool crosses = next <= pc || next / 128 != pc / 128;
                begun[pc]++;
                steps++;
                crossings += crosses;
                due = word == SLEEP || (crosses && crossings % quantum == 0);
                tell_step(avr, &outset);
                continue;
            }
            printf("fault io 0x%04X address 0x%04X", pc, refused);
        }
        printf(" steps %lu checkpoints %lu\n", steps, crossings / quantum);
        return;
    }
}

static FILE *file_in(const char *folder, const char *name) {
    char path[PATH_MAX];
    snprintf(path, sizeof path, "%s/%s", folder, name);
    FILE *file = fopen(path, "w");
    if (file == NULL) {
        exit(1);
    }
    return file;
}

static void tell_state(const avr_t *avr, FILE *out) {
    unsigned pages = 0;
    for (unsigned i = 0; i < 0x100; i++) {
        pages += stored[i];
    }
    fprintf(out, "pc 0x%04X\nsp 0x%04X\nsreg 0x%02X\n", avr->pc / 2, stack_pointer(avr), status_register(avr));
    for (unsigned i = 0; i < 32; i++) {
        fprintf(out, "r%u 0x%02X\n", i, avr->data[i]);
    }
    fprintf(out, "polls %lu\nevents %d of %d\nslots %u\n", in.polls, in.next_event, event_count, pages);
    fprintf(out, "enabled 0x%02X\nrequested 0x%02X\n", avr->data[EIMSK_ADDRESS], in.pending);
}

static void tell_memory(const avr_t *avr, FILE *out) {
    static const uint8_t empty[16];
    for (unsigned row = 0x100; row < 0x10000; row += 16) {
        if (memcmp(avr->data + row, empty, 16) != 0) {
            fprintf(out, "0x%04X", row);
            for (unsigned i = 0; i < 16; i++) {
                fprintf(out, " 0x%02X", avr->data[row + i]);
            }
            fprintf(out, "\n");
        }
    }
}

static void tell_profile(FILE *out) {
    for (unsigned i = 0; i < 0x10000; i++) {
        if (begun[i] > 0) {
            fprintf(out, "0x%04X %lu\n", i, begun[i]);
        }
    }
}

static void tell_what_is_left(const avr_t *avr, const char *folder) {
    tell_state(avr, file_in(folder, "state"));
    tell_memory(avr, file_in(folder, "memory"));
    tell_profile(file_in(folder, "profile"));
}

static void read_words(const char *folder) {
    char path[PATH_MAX], line[200];
    snprintf(path, sizeof path, "%s/words", folder);
    FILE *file = fopen(path, "r");
    while (file != NULL && fgets(line, sizeof line, file) != NULL) {
        if (sscanf(line, "trace %lu %lu", &first_row, &row_count) == 2) {
            told_trace = file_in(folder, "trace");
        } else if (sscanf(line, "changes %x %u", &watched_at, &watched_count) == 2) {
            told_changes = file_in(folder, "changes");
        } else if (sscanf(line, "accesses %x %u", &accessed_at, &accessed_count) == 2) {
            told_accesses = file_in(folder, "accesses");
        } else if (strtok(line, " \n") != NULL) {
            told_visits = file_in(folder, "visits");
            for (const char *place = strtok(NULL, " \n"); place != NULL; place = strtok(NULL, " \n")) {
                is_place[strtoul(place, NULL, 16) & 0xFFFF] = true;
            }
        }
    }
}

static avr_t *mote(void) {
    avr_t *avr = avr_make_mcu_by_name("atmega128");
    avr->ramend = 0xFFFF;
    avr_init(avr);
    memset(avr->flash, 0xFF, avr->flashend + 1);
    memset(avr->data, 0, avr->ramend + 1);
    for (unsigned address = 0x20; address < 0x100; address++) {
        bool core = address == R_SPL || address == R_SPH || address == R_SREG;
        avr_io_addr_t io = AVR_DATA_TO_IO(address);
        memset(&avr->io[io], 0, sizeof avr->io[io]);
        avr->io[io].r.c = core ? NULL : on_read;
        avr->io[io].w.c = core ? NULL : on_write;
    }
    avr->pc = 0;
    return avr;
}

static void read_script(const char *name) {
    char line[200];
    FILE *file = fopen(name, "r");
    while (file != NULL && fgets(line, sizeof line, file) != NULL) {
        struct event *event = &events[event_count];
        event_count += sscanf(line, "at %lu %7s %x", &event->poll, event->kind, &event->value) == 3;
    }
}

int main(int count, char **words) {
    const char *folder = count > 2 && strcmp(words[1], "--watch") == 0 ? words[2] : NULL;
    if (folder != NULL) {
        told_lines = file_in(folder, "lines");
        read_words(folder);
        words += 2;
        count -= 2;
    }
    ihex_chunk_p chunks;
    avr_t *avr = mote();
    unsigned bytes = 0;
    int chunk_count = count < 4 ? 0 : read_ihex_chunks(words[3], &chunks);
    if (chunk_count <= 0) {
        return 1;
    }
    for (int i = 0; i < chunk_count; i++) {
        memcpy(avr->flash + chunks[i].baseaddr, chunks[i].data, chunks[i].size);
        unsigned end = chunks[i].baseaddr + chunks[i].size;
        bytes = end > bytes ? end : bytes;
    }
    if (count > 4) {
        read_script(words[4]);
    }
    run(avr, (bytes + 1) / 2, strtoul(words[1], NULL, 10), strtoul(words[2], NULL, 10));
    if (folder != NULL) {
        tell_what_is_left(avr, folder);
    }
}
