/* Loaded before the C library (LD_PRELOAD), this lets something happen right before one call of a command that opens,
   makes, changes, names or removes a file: before the call with the number AT_NUMBER, counted from the first that opens
   a folder by O_PATH. AT_WAY says what happens: the process is killed, or the names AT_ONE and AT_OTHER change places,
   for that call or for good. Only calls of the first process are counted, or of one that calls `begin`. AT_OLD makes the
   file system an old one, without files that have no name and without an exchange of names. AT_NOTES is a descriptor that
   gets the name of each call that is counted. AT_MARK is a folder that is made when it happens. */
#include "preload.h"

enum way { KILLED = 1, EXCHANGED_FOR_THE_CALL, EXCHANGED_FOR_GOOD };

#define O_FOLDER 010200000 /* O_PATH and O_DIRECTORY */
#define O_TMPFILE 020200000
#define NOT_SUPPORTED 95
#define INVALID 22
#define HERE (-100)
#define SYS_WRITE 1
#define SYS_RENAMEAT2 316

extern int getpid(void);
extern int kill(int, int);
extern long syscall(long, ...);
extern int mkdir(const char *, unsigned);
extern unsigned long strlen(const char *);

static long chosen, way, is_old, notes, count, begun, first_process;
static const char *one, *other, *mark;

__attribute__((constructor)) void begin(void)
{
    count = begun = 0;
    chosen = number("AT_NUMBER");
    way = number("AT_WAY");
    is_old = number("AT_OLD");
    notes = number("AT_NOTES");
    one = getenv("AT_ONE");
    other = getenv("AT_OTHER");
    mark = getenv("AT_MARK");
    first_process = getpid();
}

static void exchange(void)
{
    syscall(SYS_RENAMEAT2, HERE, one, HERE, other, 2);
}

/* Counts a call, and answers whether the names are to be exchanged back after it. */
static int before(const char *name)
{
    int error = *__errno_location(), back = 0;
    if (!begun || getpid() != first_process)
        return 0;
    if (notes) {
        syscall(SYS_WRITE, notes, name, strlen(name));
        syscall(SYS_WRITE, notes, "\n", 1L);
    }
    if (++count == chosen) {
        if (mark)
            mkdir(mark, 0777);
        if (way == KILLED)
            kill(getpid(), 9);
        exchange();
        back = way == EXCHANGED_FOR_THE_CALL;
    }
    *__errno_location() = error;
    return back;
}

static long after(int back, long result)
{
    int error = *__errno_location();
    if (back)
        exchange();
    *__errno_location() = error;
    return result;
}

#define CALL(TYPE, NAME, PARAMETERS, ARGUMENTS, REFUSED)              \
    TYPE NAME PARAMETERS                                              \
    {                                                                 \
        static TYPE (*real) PARAMETERS;                               \
        int back;                                                     \
        if (!real)                                                    \
            *(void **)&real = dlsym(NEXT, #NAME);                     \
        back = before(#NAME);                                         \
        return (TYPE)after(back, (REFUSED) ? failed(REFUSED) : (long)real ARGUMENTS); \
    }

#define BEGINS(FLAGS) (begun = begun || ((FLAGS) & O_FOLDER) == O_FOLDER, 0)
#define UNKNOWN_FLAGS(FLAGS) (BEGINS(FLAGS) || (is_old && ((FLAGS) & O_TMPFILE) == O_TMPFILE) ? NOT_SUPPORTED : 0)

CALL(int, open, (const char *path, int flags, int mode), (path, flags, mode), UNKNOWN_FLAGS(flags))
CALL(int, open64, (const char *path, int flags, int mode), (path, flags, mode), UNKNOWN_FLAGS(flags))
CALL(int, openat, (int folder, const char *path, int flags, int mode),
     (folder, path, flags, mode), UNKNOWN_FLAGS(flags))
CALL(int, openat64, (int folder, const char *path, int flags, int mode),
     (folder, path, flags, mode), UNKNOWN_FLAGS(flags))
CALL(long, read, (int file, void *bytes, unsigned long size), (file, bytes, size), 0)
CALL(long, pread64, (int file, void *bytes, unsigned long size, long place), (file, bytes, size, place), 0)
CALL(long, write, (int file, const void *bytes, unsigned long size), (file, bytes, size), 0)
CALL(int, fstatat64, (int folder, const char *path, void *found, int flags), (folder, path, found, flags), 0)
CALL(int, flock, (int file, int way), (file, way), 0)
CALL(int, fsync, (int file), (file), 0)
CALL(int, fchmod, (int file, unsigned mode), (file, mode), 0)
CALL(int, fchown, (int file, unsigned user, unsigned group), (file, user, group), 0)
CALL(int, setresuid, (unsigned real_user, unsigned user, unsigned saved), (real_user, user, saved), 0)
CALL(int, linkat, (int from, const char *name, int to, const char *second, int flags),
     (from, name, to, second, flags), 0)
CALL(int, renameat, (int from, const char *name, int to, const char *second), (from, name, to, second), 0)
CALL(int, renameat2, (int from, const char *name, int to, const char *second, unsigned flags),
     (from, name, to, second, flags), is_old ? INVALID : 0)
CALL(int, unlinkat, (int folder, const char *name, int flags), (folder, name, flags), 0)
CALL(int, unlink, (const char *name), (name), 0)
