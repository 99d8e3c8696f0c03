/* What the libraries that are loaded before the C library (LD_PRELOAD) share. It declares what they need of 64-bit
   Linux, and includes no header, so that a compiler without a C library builds them. */

#define NEXT ((void *)-1L)
/* The function of this name that the program would call without the library. */
#define REAL(NAME) ((__typeof__(&NAME))dlsym(NEXT, #NAME))

extern void *dlsym(void *, const char *);
extern char *getenv(const char *);
extern long atol(const char *);
extern int *__errno_location(void);

/* The number that a variable of the environment has, or 0. */
static inline long number(const char *name)
{
    const char *text = getenv(name);
    return text ? atol(text) : 0;
}

/* Lets a call fail. */
static inline long failed(int error)
{
    *__errno_location() = error;
    return -1;
}
