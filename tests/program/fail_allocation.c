/* Loaded before the C library (LD_PRELOAD), this refuses a program memory. From the program's start on the calls of
   malloc and its kin are counted, and those with the numbers GROWTHS_FIRST to GROWTHS_LAST answer that no memory is
   left. At its end three numbers are written to the descriptor GROWTHS_NOTES: all calls, the refused ones that the
   program itself made, and the refused ones that came from elsewhere, as from the C library. */
#include "preload.h"

typedef unsigned long size_t;

#define NULL ((void *)0)
#define NO_MEMORY 12
#define LOADED 1

/* A part of an object, as an ELF file of 64 bits has it. */
struct part {
    unsigned type, flags;
    size_t offset, address, physical, in_file, in_memory, alignment;
};

/* The front of what the loader tells of an object. */
struct object {
    size_t base;
    const char *name;
    const struct part *parts;
    unsigned short count;
};

extern int dl_iterate_phdr(int (*)(struct object *, size_t, void *), void *);
extern long write(int, const void *, size_t);

static struct {
    long calls, own, others;
} notes;

static long first, last;

/* Where the program itself lies in memory; nowhere before its start. */
static struct {
    char *start, *end;
} program;

/* The program is the first object that is loaded, so the walk ends with it. */
static int find_program(struct object *object, size_t size, void *unused)
{
    (void)size, (void)unused;
    for (int i = 0; i < object->count; i++) {
        const struct part *part = &object->parts[i];
        char *start = (char *)object->base + part->address, *end = start + part->in_memory;
        if (part->type != LOADED)
            continue;
        if (program.start == NULL || start < program.start)
            program.start = start;
        if (end > program.end)
            program.end = end;
    }
    return 1;
}

__attribute__((constructor)) static void begin(void)
{
    first = number("GROWTHS_FIRST");
    last = number("GROWTHS_LAST");
    dl_iterate_phdr(find_program, NULL);
}

__attribute__((destructor)) static void end(void)
{
    if (write((int)number("GROWTHS_NOTES"), &notes, sizeof notes) < 0)
        notes.calls = 0;
}

/* Counts a call from this place, and says whether it is refused. */
static int is_refused(const char *caller)
{
    if (program.start == NULL)
        return 0;
    notes.calls++;
    if (notes.calls < first || notes.calls > last)
        return 0;
    if (program.start <= caller && caller < program.end)
        notes.own++;
    else
        notes.others++;
    *__errno_location() = NO_MEMORY;
    return 1;
}

#define IS_REFUSED is_refused(__builtin_return_address(0))

void *malloc(size_t size)
{
    static __typeof__(&malloc) real;
    real = real ? real : REAL(malloc);
    return IS_REFUSED ? NULL : real(size);
}

void *calloc(size_t count, size_t size)
{
    static __typeof__(&calloc) real;
    real = real ? real : REAL(calloc);
    return IS_REFUSED ? NULL : real(count, size);
}

void *realloc(void *block, size_t size)
{
    static __typeof__(&realloc) real;
    real = real ? real : REAL(realloc);
    return IS_REFUSED ? NULL : real(block, size);
}

void *aligned_alloc(size_t alignment, size_t size)
{
    static __typeof__(&aligned_alloc) real;
    real = real ? real : REAL(aligned_alloc);
    return IS_REFUSED ? NULL : real(alignment, size);
}

int posix_memalign(void **block, size_t alignment, size_t size)
{
    static __typeof__(&posix_memalign) real;
    real = real ? real : REAL(posix_memalign);
    return IS_REFUSED ? NO_MEMORY : real(block, alignment, size);
}
