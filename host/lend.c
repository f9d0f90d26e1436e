#define _GNU_SOURCE
#include "lend.h"
#include <signal.h>
#include <stdio.h>
#include <stdlib.h>
#include <string.h>
#include <sys/mman.h>
#include <unistd.h>

/* PAGE is a multiple of the page of any machine at hand. BESIDE bytes on the side of a part that is not against a page are looked at after a call. */
enum { PAGE = 65536, WHOLE = 720896, BESIDE = 64, BESIDE_BYTE = 92 };

/* The same memory twice: pages that can be written, and pages that cannot. `at` is where the lent bytes begin. */
struct part {
    const char *name;
    uint8_t *writable, *readable;
    size_t at, count;
};

static part parts[] = {{.name = "the room"}, {.name = "the file"}, {.name = "the row"}, {.name = "the output"}, {.name = "the tally"},
    {.name = "the ticks"}, {.name = "the values"}, {.name = "the caption"}};
enum { PARTS = sizeof parts / sizeof parts[0] };
part *const room_part = &parts[0], *const file_part = &parts[1], *const row_part = &parts[2], *const output_part = &parts[3], *const tally_part = &parts[4];
part *const ticks_part = &parts[5], *const values_part = &parts[6], *const caption_part = &parts[7];

const char *call_at_hand = "no call";
uint64_t line_at_hand;

static void stop(const char *what, const char *name)
{
    char message[256];
    int length = snprintf(message, sizeof message, "host: line %llu, %s: %s %s\n", (unsigned long long)line_at_hand, call_at_hand, what, name);
    if (length > 0 && write(STDERR_FILENO, message, (size_t)length) != length)
        _exit(4);
    _exit(3);
}

static int within(const uint8_t *address, const uint8_t *from, size_t count)
{
    return (uintptr_t)address >= (uintptr_t)from && (uintptr_t)address - (uintptr_t)from < count;
}

/* An emulator may enter it with a stack that is not aligned as the calling convention has it. */
__attribute__((force_align_arg_pointer)) static void touched(int number, siginfo_t *told, void *context)
{
    const uint8_t *address = told->si_addr;
    (void)number;
    (void)context;
    for (size_t i = 0; i < PARTS; i++) {
        const uint8_t *const views[] = {parts[i].writable, parts[i].readable};
        for (size_t view = 0; view < 2; view++) {
            if (within(address, views[view] - PAGE, PAGE))
                stop("touches what lies before", parts[i].name);
            if (within(address, views[view] + WHOLE, PAGE))
                stop("touches what lies behind", parts[i].name);
            if (within(address, views[view], WHOLE))
                stop("writes to", parts[i].name);
        }
    }
    stop("touches memory that is", "nobody's");
}

static void *made(void *memory)
{
    if (memory == MAP_FAILED) {
        perror("host: mmap");
        exit(4);
    }
    return memory;
}

static uint8_t *view(int file, int protection)
{
    uint8_t *around = made(mmap(NULL, PAGE + WHOLE + PAGE, PROT_NONE, MAP_PRIVATE | MAP_ANONYMOUS, -1, 0));
    return made(mmap(around + PAGE, WHOLE, protection, MAP_SHARED | MAP_FIXED, file, 0));
}

void make_parts(void)
{
    for (size_t i = 0; i < PARTS; i++) {
        int file = memfd_create("lent", 0);
        if (file < 0 || ftruncate(file, WHOLE) != 0) {
            perror("host: memfd_create");
            exit(4);
        }
        parts[i].writable = view(file, PROT_READ | PROT_WRITE);
        parts[i].readable = view(file, PROT_READ);
    }
    struct sigaction action;
    memset(&action, 0, sizeof action);
    action.sa_sigaction = touched;
    action.sa_flags = SA_SIGINFO;
    sigaction(SIGSEGV, &action, NULL);
    sigaction(SIGBUS, &action, NULL);
}

/* By turns that no script goes by. */
static int against_the_page_behind(void)
{
    static uint64_t turns = 1;
    turns = turns * 6364136223846793005u + 1442695040888963407u;
    return (int)(turns >> 63);
}

/* The bytes close beside the lent ones, on the side where no page keeps them from being touched. */
static uint8_t *beside(const part *of, size_t *count)
{
    size_t end = of->at + of->count;
    size_t room = of->at > 0 ? of->at : WHOLE - end;
    *count = room < BESIDE ? room : BESIDE;
    return of->at > 0 ? of->writable + of->at - *count : of->writable + end;
}

static void place(part *of, const void *bytes, size_t count)
{
    size_t near;
    of->count = count;
    of->at = against_the_page_behind() ? WHOLE - count : 0;
    memcpy(of->writable + of->at, bytes, count);
    uint8_t *side = beside(of, &near);
    memset(side, BESIDE_BYTE, near);
}

void *lend(part *of, const void *bytes, size_t count)
{
    place(of, bytes, count);
    return of->writable + of->at;
}

const void *lend_const(part *of, const void *bytes, size_t count)
{
    place(of, bytes, count);
    return of->readable + of->at;
}

void take_back(part *of, void *bytes)
{
    size_t near;
    const uint8_t *side = beside(of, &near);
    for (size_t i = 0; i < near; i++)
        if (side[i] != BESIDE_BYTE)
            stop("writes beside", of->name);
    memcpy(bytes, of->writable + of->at, of->count);
}
