/* Loaded before the C library (LD_PRELOAD), this notes each call of a program that opens, closes, reads or writes a
   file, and lets one of them go wrong: of the calls of the kind FAIL_KIND the one with the number FAIL_NUMBER, from
   1, does what FAIL_WAY says. All others work. Each call is noted as a struct note to the descriptor FAIL_NOTES. */
#include "preload.h"

enum kind { OPEN = 1, CLOSE, READ, WRITE };
enum way { FAILS = 1, DOES_NOTHING, IS_SHORT };

struct note {
    long kind, descriptor, result;
};

#define TOO_MANY_FILES 24
#define INPUT_OUTPUT 5

static long chosen_kind, chosen_number, chosen_way, notes;
static long counts[WRITE + 1];

extern long write(int, const void *, unsigned long);

__attribute__((constructor)) static void begin(void)
{
    chosen_kind = number("FAIL_KIND");
    chosen_number = number("FAIL_NUMBER");
    chosen_way = number("FAIL_WAY");
    notes = number("FAIL_NOTES");
}

/* Counts a call, and answers whether it is the one that goes wrong. */
static int goes_wrong(enum kind kind)
{
    return ++counts[kind] == chosen_number && kind == chosen_kind;
}

static long noted(enum kind kind, long descriptor, long result)
{
    struct note note = {kind, descriptor, result};
    int error = *__errno_location();
    if (notes)
        REAL(write)((int)notes, &note, sizeof note);
    *__errno_location() = error;
    return result;
}

/* How many bytes the chosen call of a read or a write is to move: all but the last half where it is short. */
static unsigned long shortened(unsigned long size)
{
    return chosen_way == IS_SHORT ? (size + 1) / 2 : size;
}

long write(int descriptor, const void *bytes, unsigned long size)
{
    long result;
    if (!goes_wrong(WRITE))
        result = REAL(write)(descriptor, bytes, size);
    else if (chosen_way == FAILS)
        result = failed(INPUT_OUTPUT);
    else
        result = chosen_way == DOES_NOTHING ? 0 : REAL(write)(descriptor, bytes, shortened(size));
    return noted(WRITE, descriptor, result);
}

long read(int descriptor, void *bytes, unsigned long size)
{
    long result;
    if (!goes_wrong(READ))
        result = REAL(read)(descriptor, bytes, size);
    else
        result = chosen_way == FAILS ? failed(INPUT_OUTPUT) : REAL(read)(descriptor, bytes, shortened(size));
    return noted(READ, descriptor, result);
}

/* A chosen close does its work all the same, as the system's does. */
int close(int descriptor)
{
    int is_chosen = goes_wrong(CLOSE);
    long result = REAL(close)(descriptor);
    return (int)noted(CLOSE, descriptor, is_chosen ? failed(INPUT_OUTPUT) : result);
}

#define OPENED(CALL) (int)noted(OPEN, 0, goes_wrong(OPEN) ? failed(TOO_MANY_FILES) : (CALL))

int open(const char *path, int flags, int mode)
{
    return OPENED(REAL(open)(path, flags, mode));
}

int open64(const char *path, int flags, int mode)
{
    return OPENED(REAL(open64)(path, flags, mode));
}

int openat(int folder, const char *path, int flags, int mode)
{
    return OPENED(REAL(openat)(folder, path, flags, mode));
}

int openat64(int folder, const char *path, int flags, int mode)
{
    return OPENED(REAL(openat64)(folder, path, flags, mode));
}
