// A library to be preloaded. It refuses one allocation of the process, the one whose number stands in
// REFUSE_ALLOCATION (from 1), and makes the file that REFUSED_NOTE names when it does. If TRIED_NOTE names a file, it
// tries each number instead, in a copy of the process, and writes there how each copy ended (`try_all`).
//
// And it writes a line into the file that ASKED_NOTE names, where an allocation asks for more than the process can have
// a use for: more than ASKED_AT_LEAST bytes and 32 bytes for each byte that it holds at that time. So much room grows
// with what was read: a list that doubles asks for twice what it holds, a list of tokens for 24 bytes for each byte of
// a text at most. A length that a few bytes only claim isn't held.
//
// And it keeps two numbers of 8 bytes in the file that MEMORY_NOTE names: how many bytes the process asked for so far,
// in all its allocations, and the most that it held at a time.
//
// Each call of malloc, calloc, realloc, reallocarray, aligned_alloc, memalign or posix_memalign counts
// as one allocation. Needs glibc, whose own functions it passes the others on to.

#include <errno.h>
#include <fcntl.h>
#include <malloc.h>
#include <signal.h>
#include <stddef.h>
#include <stdint.h>
#include <stdio.h>
#include <stdlib.h>
#include <sys/mman.h>
#include <sys/prctl.h>
#include <sys/single_threaded.h>
#include <sys/stat.h>
#include <sys/wait.h>
#include <unistd.h>

extern void *__libc_malloc(size_t size);
extern void *__libc_calloc(size_t count, size_t size);
extern void *__libc_realloc(void *old, size_t size);
extern void *__libc_memalign(size_t alignment, size_t size);
extern void __libc_free(void *old);

enum { ASKED_FOR_A_BYTE = 32, SECONDS = 120, TO_THE_END = 997 };

static unsigned long refused_number;
static unsigned long asked_at_least;
static unsigned long seen;
static size_t held;
static int is_ready;

// What MEMORY_NOTE has, if it names a file.
struct memory {
    uint64_t asked;
    uint64_t most;
};

static struct memory *memory;

// The number that this variable holds, or 0.
static unsigned long number_in(const char *variable) {
    unsigned long number = 0;
    const char *digit = getenv(variable);
    for (; digit != NULL && *digit >= '0' && *digit <= '9'; digit++)
        number = 10 * number + (unsigned long)(*digit - '0');
    return number;
}

// Opens the file that this variable names, or answers -1.
static int note(const char *variable) {
    const char *path = getenv(variable);
    return path == NULL ? -1 : open(path, O_WRONLY | O_CREAT | O_APPEND, 0600);
}

// To try each number, the process that was started (the starter) first makes a copy of itself (the walker), which
// refuses nothing. At each allocation the walker makes a copy of itself, in which that one is refused, waits for its
// end, and goes on. So a number costs what is left of a run after the refusal, which mostly is little.
//
// Once the walker has started a thread, holds a file open or has made one in its folder, a copy of it may do other
// things than a run of its own. From there on the starter makes the copies, each a whole run, until one has no
// allocation of its number.
//
// Several starters share the numbers: PART of PARTS tries PART, PART + PARTS, and so on. If FOLLOWED is set, a copy
// that goes on after the refusal ends after so many more allocations; but each 997th runs to its end.

// What these processes share: the last number that the walker tried, and whether the last copy came to its own.
struct shared {
    unsigned long walked;
    int was_refused;
};

static struct shared *shared;
static int is_walker;
static unsigned long part;
static unsigned long parts;
static unsigned long followed;
static int tried_note;
static int standard_error;
static int free_file;

static void fail(const char *what) {
    perror(what);
    _exit(125);
}

// The number that a file would get now.
static int next_file(void) {
    int file = fcntl(tried_note, F_DUPFD, 0);
    close(file);
    return file;
}

// Writes a line: the number that was refused (0: none), the status (of what a signal ended, 128 and the signal), and
// the begin of standard error, with '|' for the ends of lines.
static void record(unsigned long number, int status) {
    char line[400];
    int code = WIFEXITED(status) ? WEXITSTATUS(status) : 128 + WTERMSIG(status);
    int start = snprintf(line, sizeof line, "%lu %d ", number, code);
    ssize_t said = pread(standard_error, line + start, sizeof line - (size_t)start - 1, 0);
    if (said < 0)
        fail("standard error");
    for (char *at = line + start; at < line + start + said; at++)
        if (*at == '\n')
            *at = '|';
    line[start + said] = '\n';
    if (write(tried_note, line, (size_t)(start + said + 1)) < 0)
        fail("TRIED_NOTE");
}

// Makes a copy of this process, in which the allocation of this number is refused; for 0, the walker. The answer is 1
// in the copy, and 0 in the process itself, once the copy has ended and standard error is again as it was.
static int in_copy(unsigned long number) {
    off_t before = lseek(standard_error, 0, SEEK_CUR);
    shared->was_refused = 0;
    pid_t copy = fork();
    if (copy == 0) {
        prctl(PR_SET_PDEATHSIG, SIGKILL);
        refused_number = number;
        is_walker = number == 0;
        if (!is_walker)
            alarm(SECONDS);
        return 1;
    }
    int status;
    if (copy < 0 || waitpid(copy, &status, 0) != copy)
        fail("a copy");
    record(shared->was_refused ? number : 0, status);
    if (ftruncate(standard_error, before) != 0 || lseek(standard_error, before, SEEK_SET) != before)
        fail("standard error");
    return 0;
}

// Of the walker: whether a copy does from here on what a run of its own does. The folder's time is 0 until a file is
// made in it.
static int is_alone(void) {
    struct stat folder;
    return __libc_single_threaded && next_file() == free_file && stat(".", &folder) == 0 && folder.st_mtime == 0;
}

// Of a copy, at an allocation: ends it, if it was followed far enough.
static void follow(unsigned long number) {
    if (followed != 0 && number > refused_number + followed && refused_number / parts % TO_THE_END != 0) {
        if (write(2, "went on", 7) < 0)
            fail("standard error");
        _exit(0);
    }
}

// Of the walker, at an allocation: makes the copy that tries it, if it is this part's. The answer is 1 in that copy.
static int in_next_copy(unsigned long number) {
    if (number % parts != part % parts)
        return 0;
    if (!is_alone()) {
        is_walker = 0;
        return 0;
    }
    shared->walked = number;
    return in_copy(number);
}

// Of the starter: makes the walker, and then the copies that are whole runs. Only these come back.
static void try_all(void) {
    prctl(PR_SET_PDEATHSIG, SIGKILL); // each of these processes ends with the one that made it
    part = number_in("PART");
    parts = number_in("PARTS");
    followed = number_in("FOLLOWED");
    shared = mmap(NULL, sizeof *shared, PROT_READ | PROT_WRITE, MAP_SHARED | MAP_ANONYMOUS, -1, 0);
    standard_error = fcntl(2, F_DUPFD_CLOEXEC, 100);
    if (shared == MAP_FAILED || standard_error < 0 || part == 0 || part > parts)
        fail("PART");
    free_file = next_file();
    if (in_copy(0))
        return;
    unsigned long number = shared->walked == 0 ? part : shared->walked + parts;
    for (;; number += parts) {
        if (in_copy(number))
            return;
        if (!shared->was_refused)
            _exit(0);
    }
}

// The two numbers in the file that MEMORY_NOTE names, or NULL.
static struct memory *memory_note(void) {
    const char *path = getenv("MEMORY_NOTE");
    int file = path == NULL ? -1 : open(path, O_RDWR | O_CREAT | O_TRUNC, 0600);
    if (file < 0)
        return NULL;
    void *kept = MAP_FAILED;
    if (ftruncate(file, sizeof(struct memory)) == 0)
        kept = mmap(NULL, sizeof(struct memory), PROT_READ | PROT_WRITE, MAP_SHARED, file, 0);
    close(file);
    return kept == MAP_FAILED ? NULL : kept;
}

// At the start of the process, or at an allocation before.
static __attribute__((constructor)) void prepare(void) {
    if (is_ready)
        return;
    is_ready = 1;
    refused_number = number_in("REFUSE_ALLOCATION");
    asked_at_least = number_in("ASKED_AT_LEAST");
    memory = memory_note();
    tried_note = note("TRIED_NOTE");
    if (tried_note >= 0)
        try_all();
}

static void judge(size_t asked) {
    size_t holds = __atomic_load_n(&held, __ATOMIC_SEQ_CST);
    if (asked <= asked_at_least || (asked - asked_at_least) / ASKED_FOR_A_BYTE <= holds)
        return;
    int file = note("ASKED_NOTE");
    if (file >= 0) {
        char line[80];
        int length = snprintf(line, sizeof line, "asked for %zu bytes, holding %zu\n", asked, holds);
        if (write(file, line, (size_t)length) < 0)
            abort();
        close(file);
    }
}

static int is_refused(size_t asked) {
    prepare();
    judge(asked);
    if (memory != NULL)
        __atomic_add_fetch(&memory->asked, asked, __ATOMIC_SEQ_CST);
    unsigned long number = __atomic_add_fetch(&seen, 1, __ATOMIC_SEQ_CST);
    if (shared != NULL && refused_number != 0)
        follow(number);
    if (number != refused_number && !(is_walker && in_next_copy(number)))
        return 0;
    if (shared != NULL)
        shared->was_refused = 1;
    int file = note("REFUSED_NOTE");
    if (file >= 0)
        close(file);
    errno = ENOMEM;
    return 1;
}

// Counts what was made, if it was, as held.
static void *made(void *memory_made) {
    if (memory_made == NULL)
        return NULL;
    uint64_t now = __atomic_add_fetch(&held, malloc_usable_size(memory_made), __ATOMIC_SEQ_CST);
    if (memory != NULL) {
        uint64_t most = __atomic_load_n(&memory->most, __ATOMIC_SEQ_CST);
        while (now > most &&
               !__atomic_compare_exchange_n(&memory->most, &most, now, 0, __ATOMIC_SEQ_CST, __ATOMIC_SEQ_CST))
            ;
    }
    return memory_made;
}

void *malloc(size_t size) { return is_refused(size) ? NULL : made(__libc_malloc(size)); }

void free(void *old) {
    if (old != NULL)
        __atomic_sub_fetch(&held, malloc_usable_size(old), __ATOMIC_SEQ_CST);
    __libc_free(old);
}

void *reallocarray(void *old, size_t count, size_t size) {
    size_t bytes;
    if (__builtin_mul_overflow(count, size, &bytes)) {
        errno = ENOMEM;
        return NULL;
    }
    if (is_refused(bytes))
        return NULL;
    size_t before = old == NULL ? 0 : malloc_usable_size(old);
    void *again = __libc_realloc(old, bytes);
    // A size of 0 frees.
    if (again != NULL || bytes == 0)
        __atomic_sub_fetch(&held, before, __ATOMIC_SEQ_CST);
    return made(again);
}

void *realloc(void *old, size_t size) { return reallocarray(old, 1, size); }

void *calloc(size_t count, size_t size) {
    size_t bytes;
    if (__builtin_mul_overflow(count, size, &bytes)) {
        errno = ENOMEM;
        return NULL;
    }
    return is_refused(bytes) ? NULL : made(__libc_calloc(count, size));
}

void *memalign(size_t alignment, size_t size) {
    return is_refused(size) ? NULL : made(__libc_memalign(alignment, size));
}

void *aligned_alloc(size_t alignment, size_t size) { return memalign(alignment, size); }

int posix_memalign(void **to, size_t alignment, size_t size) {
    if (is_refused(size))
        return ENOMEM;
    void *aligned = made(__libc_memalign(alignment, size));
    if (aligned == NULL)
        return ENOMEM;
    *to = aligned;
    return 0;
}
