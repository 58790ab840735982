/* Tells AFL which blocks of a program ran, though the program was built without its help. Built and loaded by fuzz.py.
 *
 * The file that BLOCKS names has the places of the program's blocks, each eight bytes, in rising order. The first byte of each
 * is replaced by a breakpoint. The signal that a breakpoint raises puts the byte back and marks the block in AFL's map. AFL's
 * server stands here too: for each run it makes a copy of the process, in which all breakpoints stand again. Without AFL
 * the program runs once, and the map is written to the file that BLOCKS_TOLD names, where it names one. */
#define _GNU_SOURCE
#include <link.h>
#include <signal.h>
#include <stdint.h>
#include <stdio.h>
#include <stdlib.h>
#include <string.h>
#include <sys/mman.h>
#include <sys/shm.h>
#include <sys/wait.h>
#include <ucontext.h>
#include <unistd.h>

enum { MAP_SIZE = 65536, ASKED = 198, TOLD = 199, MOST = 1 << 20 };
static const uint8_t breakpoint = 0xCC;

static uint64_t places[MOST];
static uint8_t bytes[MOST];
static size_t count;
static uint8_t *map;
static uint8_t own_map[MAP_SIZE];

static size_t number_of(uint64_t place) {
    size_t low = 0, high = count;
    while (low < high) {
        size_t middle = (low + high) / 2;
        if (places[middle] < place) low = middle + 1;
        else high = middle;
    }
    return low;
}

static void reached(int signal, siginfo_t *info, void *context) {
    (void)info;
    greg_t *registers = ((ucontext_t *)context)->uc_mcontext.gregs;
    uint64_t place = (uint64_t)registers[REG_RIP] - 1;
    size_t number = number_of(place);
    if (number == count || places[number] != place) { /* no breakpoint of ours */
        struct sigaction usual = {.sa_handler = SIG_DFL};
        sigaction(signal, &usual, NULL);
        return;
    }
    *(uint8_t *)place = bytes[number];
    map[number * 40503u % MAP_SIZE] = 1;
    registers[REG_RIP] = (greg_t)place;
}

/* The first object is the program itself. Its code may be written from here on. */
static int opened(struct dl_phdr_info *object, size_t size, void *base) {
    (void)size;
    *(uint64_t *)base = object->dlpi_addr;
    for (int number = 0; number < object->dlpi_phnum; number++) {
        const ElfW(Phdr) *part = &object->dlpi_phdr[number];
        if (part->p_type != PT_LOAD || !(part->p_flags & PF_X)) continue;
        uint64_t first = (object->dlpi_addr + part->p_vaddr) & ~4095ul, end = object->dlpi_addr + part->p_vaddr + part->p_memsz;
        if (mprotect((void *)first, end - first, PROT_READ | PROT_WRITE | PROT_EXEC) != 0) exit(97);
    }
    return 1;
}

static void set_breakpoints(const char *name) {
    uint64_t base = 0;
    FILE *file = fopen(name, "rb");
    if (!file) exit(98);
    count = fread(places, sizeof *places, MOST, file);
    fclose(file);
    dl_iterate_phdr(opened, &base);
    for (size_t number = 0; number < count; number++) {
        places[number] += base;
        bytes[number] = *(uint8_t *)places[number];
        *(uint8_t *)places[number] = breakpoint;
    }
}

/* Makes a copy of the process for each run that AFL asks for. Only the copies come back from here. */
static void serve(void) {
    uint32_t word = 0;
    if (write(TOLD, &word, sizeof word) != sizeof word) return; /* nobody listens: one run */
    while (read(ASKED, &word, sizeof word) == sizeof word) {
        pid_t child = fork();
        if (child < 0) _exit(99);
        if (child == 0) {
            close(ASKED);
            close(TOLD);
            return;
        }
        int status = 0;
        if (write(TOLD, &child, sizeof child) != sizeof child) _exit(99);
        if (waitpid(child, &status, 0) < 0) _exit(99);
        if (write(TOLD, &status, sizeof status) != sizeof status) _exit(99);
    }
    _exit(0);
}

static void tell_own(void) {
    FILE *file = fopen(getenv("BLOCKS_TOLD"), "wb");
    if (!file) return;
    fwrite(own_map, 1, MAP_SIZE, file);
    fclose(file);
}

__attribute__((constructor)) static void begin(void) {
    const char *name = getenv("BLOCKS"), *shared = getenv("__AFL_SHM_ID");
    if (!name) return;
    map = own_map;
    if (shared && (map = shmat(atoi(shared), NULL, 0)) == (void *)-1) exit(96);
    struct sigaction action = {.sa_sigaction = reached, .sa_flags = SA_SIGINFO | SA_NODEFER};
    sigaction(SIGTRAP, &action, NULL);
    set_breakpoints(name);
    if (shared) serve();
    else if (getenv("BLOCKS_TOLD")) atexit(tell_own);
}
