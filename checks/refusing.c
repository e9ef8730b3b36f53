/* An allocator that refuses one request, for checks/memory to load into the program of the rows (docs/MEMORY.md).

   Requests are counted between two of MARK bytes, which the program makes before a call and behind it. The one whose number
   stands in REFUSED gets no memory, and a line says so; behind the second mark a line says how many there were. Nothing
   of the C library's headers is needed. */
typedef unsigned long bytes;

extern void *__libc_malloc(bytes);
extern void *__libc_realloc(void *, bytes);
extern char *getenv(const char *);
extern long strtol(const char *, char **, int);
extern int dprintf(int, const char *, ...);

enum { MARK = 77777, ERRORS = 2 };

static int is_counting;
static long requests;

/* Begins to count at the mark before a call, and ends at the one behind it. What is printed takes memory uncounted. */
static void mark(void) {
    is_counting = !is_counting;
    if (!is_counting)
        dprintf(ERRORS, "%ld requests\n", requests);
}

/* Whether the next request is the one to refuse. */
static int is_refused(void) {
    const char *number = getenv("REFUSED");
    if (!is_counting || ++requests != (number ? strtol(number, 0, 10) : 0))
        return 0;
    is_counting = 0;
    dprintf(ERRORS, "refused\n");
    is_counting = 1;
    return 1;
}

void *malloc(bytes wanted) {
    if (wanted == MARK)
        mark();
    else if (is_refused())
        return 0;
    return __libc_malloc(wanted);
}

void *realloc(void *old, bytes wanted) {
    return is_refused() ? 0 : __libc_realloc(old, wanted);
}
