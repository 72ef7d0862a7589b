/* Refuses growths of a program, unchanged: `bench/refuse` has it loaded before the C library (LD_PRELOAD). A growth is a
 * call that asks the C library for memory: malloc, realloc, calloc, the calls for aligned memory, and pthread_create,
 * which maps a stack. They are counted from 1, over all threads. One that is refused answers as the C library does where
 * there is no memory, and changes nothing.
 *
 * The environment's REFUSE is the number of a descriptor, which whoever starts the program shares with it: a file of one
 * page, in which struct tally stands. It can be read however the program ends. Without it nothing is refused.
 *
 * Not seen: what a program maps by itself (mmap, brk), and what another allocator, linked into it, gives. `bench/refuse`
 * reads the names that the program asks of the C library, and fails where one of these is among them. `syscall` is how
 * threads wait for each other (futex): a program that calls the system by it for anything else is ended here, with a line.
 * The C library's own calls of malloc come here, but for the first few of the loader, before this is loaded. */
#define _GNU_SOURCE
#include <dlfcn.h>
#include <errno.h>
#include <link.h>
#include <pthread.h>
#include <stdarg.h>
#include <stdatomic.h>
#include <stdint.h>
#include <stdlib.h>
#include <sys/mman.h>
#include <sys/syscall.h>
#include <unistd.h>

enum { PAGE = 4096, PLACES = 400, CALLS_OFF = 64 * 1024 };

/* What the program is told, and what it tells; all numbers have 8 octets. */
struct tally {
    uint64_t first, last;         /* which growths are refused: none where first is above last */
    uint64_t loaded;              /* 1 once this library is there */
    _Atomic uint64_t met;         /* how many growths were asked for */
    _Atomic uint64_t refused;     /* how many of them were refused */
    uint64_t wants_places;        /* whether the places of the first refusal are wanted */
    uint64_t places;              /* how many there are */
    uint64_t place[PLACES];       /* the return addresses on the stack then, within the program's own code, from its start */
};

_Static_assert(sizeof(struct tally) <= PAGE, "a tally is one page");

void *__libc_malloc(size_t);
void *__libc_realloc(void *, size_t);
void *__libc_calloc(size_t, size_t);
void *__libc_memalign(size_t, size_t);

static struct tally nobody = {.first = 1}, *tally = &nobody;

__attribute__((constructor)) static void load(void)
{
    const char *number = getenv("REFUSE");
    void *page = number ? mmap(NULL, PAGE, PROT_READ | PROT_WRITE, MAP_SHARED, atoi(number), 0) : MAP_FAILED;
    if (page != MAP_FAILED) {
        tally = page;
        tally->loaded = 1;
    }
}

/* Where the program's code stands in memory. */
struct code {
    uintptr_t start, from, to;
};

static int find_code(struct dl_phdr_info *program, size_t size, void *found)
{
    (void)size;
    struct code *code = found;
    code->start = program->dlpi_addr;
    for (int i = 0; i < program->dlpi_phnum; i++) {
        const ElfW(Phdr) *part = &program->dlpi_phdr[i];
        if (part->p_type == PT_LOAD && (part->p_flags & PF_X)) {
            code->from = code->start + part->p_vaddr;
            code->to = code->from + part->p_memsz;
        }
    }
    return 1; /* the program itself comes first, and is enough */
}

/* Notes each word of the stack above this call, up to 64 KiB or the stack's end, that is the address behind a call in the
 * program's code. A word that an earlier call left may be among them. */
static void note_places(void)
{
    extern void *__libc_stack_end;
    struct code code = {0};
    dl_iterate_phdr(find_code, &code);
    /* The C library puts what is a thread's own at the end of the stack that it maps for it. */
    uintptr_t *word = __builtin_frame_address(0), *end = (uintptr_t *)__libc_stack_end;
    uintptr_t *own = __builtin_thread_pointer();
    if (word > end || end - word > CALLS_OFF / 8)
        end = word + CALLS_OFF / 8;
    if (own > word && own < end)
        end = own;
    for (; word < end && tally->places < PLACES; word++)
        if (*word >= code.from + 5 && *word < code.to && ((const uint8_t *)*word)[-5] == 0xe8)
            tally->place[tally->places++] = *word - code.start;
}

/* Whether this growth, which is counted, is refused. */
static int is_refused(void)
{
    uint64_t number = atomic_fetch_add(&tally->met, 1) + 1;
    if (number < tally->first || number > tally->last)
        return 0;
    if (atomic_fetch_add(&tally->refused, 1) == 0 && tally->wants_places)
        note_places();
    errno = ENOMEM;
    return 1;
}

void *malloc(size_t size)
{
    return is_refused() ? NULL : __libc_malloc(size);
}

/* A call with a list and no octets gives the list back: that is no growth. */
void *realloc(void *list, size_t size)
{
    return (size || !list) && is_refused() ? NULL : __libc_realloc(list, size);
}

void *calloc(size_t count, size_t size)
{
    return is_refused() ? NULL : __libc_calloc(count, size);
}

void *memalign(size_t alignment, size_t size)
{
    return is_refused() ? NULL : __libc_memalign(alignment, size);
}

void *aligned_alloc(size_t alignment, size_t size)
{
    return memalign(alignment, size);
}

int posix_memalign(void **list, size_t alignment, size_t size)
{
    if (alignment < sizeof(void *) || (alignment & (alignment - 1)))
        return EINVAL;
    int earlier = errno;
    void *found = memalign(alignment, size);
    errno = earlier;
    if (!found)
        return ENOMEM;
    *list = found;
    return 0;
}

int pthread_create(pthread_t *thread, const pthread_attr_t *how, void *(*run)(void *), void *with)
{
    static int (*real)(pthread_t *, const pthread_attr_t *, void *(*)(void *), void *);
    if (!real)
        *(void **)&real = dlsym(RTLD_NEXT, "pthread_create");
    return is_refused() ? EAGAIN : real(thread, how, run, with);
}

/* Waits for another thread, or wakes it, as the program asks; ends the program where it asks for anything else. */
long syscall(long number, ...)
{
    static long (*real)(long, ...);
    static const char other[] = "bench/refuse: a call of the system that isn't futex\n";
    va_list given;
    long words[6];
    if (number != SYS_futex) {
        (void)!write(STDERR_FILENO, other, sizeof other - 1);
        abort();
    }
    va_start(given, number);
    for (int i = 0; i < 6; i++)
        words[i] = va_arg(given, long);
    va_end(given);
    if (!real)
        *(void **)&real = dlsym(RTLD_NEXT, "syscall");
    return real(number, words[0], words[1], words[2], words[3], words[4], words[5]);
}
