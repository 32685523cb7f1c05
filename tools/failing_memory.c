// Loaded before a program by tools/failing_memory.py: refuses its allocations as the environment says.
//   FAILING_MEMORY_AT      the number of the call that is refused, counted from 1 (0: none is)
//   FAILING_MEMORY_EACH    1: the program marks parts of its run; each call in these is refused in turn, in a copy of the
//                          process that goes on from there, while the process itself is refused nothing
//   FAILING_MEMORY_STAY    1: so is each later one, up to the next mark or the program's end
//   FAILING_MEMORY_JOBS    how many copies run at once
//   FAILING_MEMORY_TOLD    the file descriptor to tell on
// A copy writes its output to a file of the current folder that is named by the number of the call, and left where it fails.
// In a program that marks, a call for exactly MARK bytes begins or ends a marked part, and is neither counted nor refused.
// Told are "refused NUMBER" of a call of the process itself, "copy NUMBER PART STATUS" once a copy has ended (the status of
// wait), and at the end "calls NUMBER PARTS".
#include <errno.h>
#include <fcntl.h>
#include <stdio.h>
#include <stdlib.h>
#include <string.h>
#include <sys/wait.h>
#include <unistd.h>

#define MARK 1000003
#define SECONDS 60
#define MOST_JOBS 64

extern void *__libc_malloc(size_t size);
extern void *__libc_calloc(size_t count, size_t size);
extern void *__libc_realloc(void *old, size_t size);
extern void *__libc_memalign(size_t alignment, size_t size);

static struct copy {
    pid_t process;
    long number, part;
} copies[MOST_JOBS];
static long at = -1, each, stays, jobs, told, calls, marks, running, is_out;

static long number(const char *name) {
    const char *text = getenv(name);
    return text ? strtol(text, NULL, 10) : 0;
}

static void tell(const char *word, long first, long second, long third) {
    char line[96];
    int length = snprintf(line, sizeof line, "%s %ld %ld %ld\n", word, first, second, third);
    if (told > 0 && write(told, line, length) < 0)
        _exit(99);
}

static void name_output(char *name, size_t room, long number) { snprintf(name, room, "%ld", number); }

// Waits until at most so many copies run.
static void wait_for(long most) {
    while (running > most) {
        int status;
        pid_t process = waitpid(-1, &status, 0);
        if (process < 0)
            _exit(99);
        for (int i = 0; i < MOST_JOBS; i++) {
            if (copies[i].process != process)
                continue;
            char name[32];
            name_output(name, sizeof name, copies[i].number);
            if (status == 0)
                unlink(name);
            tell("copy", copies[i].number, copies[i].part, status);
            copies[i].process = 0;
            running--;
        }
    }
}

// Makes a copy of the process; whether this is the copy.
static int is_copy(void) {
    wait_for(jobs - 1);
    long part = (marks + 1) / 2;
    pid_t process = fork();
    if (process < 0)
        _exit(99);
    if (process == 0) {
        char name[32];
        name_output(name, sizeof name, calls);
        int file = open(name, O_CREAT | O_TRUNC | O_WRONLY, 0600);
        if (file < 0 || dup2(file, 1) < 0 || dup2(file, 2) < 0)
            _exit(99);
        each = told = running = 0;
        alarm(SECONDS);
        return 1;
    }
    for (int i = 0; i < MOST_JOBS; i++) {
        if (copies[i].process == 0) {
            copies[i] = (struct copy){process, calls, part};
            running++;
            break;
        }
    }
    return 0;
}

static void begin(void) {
    each = number("FAILING_MEMORY_EACH");
    stays = number("FAILING_MEMORY_STAY");
    jobs = number("FAILING_MEMORY_JOBS");
    jobs = jobs < 1 ? 1 : jobs > MOST_JOBS ? MOST_JOBS : jobs;
    told = number("FAILING_MEMORY_TOLD");
    at = number("FAILING_MEMORY_AT");
}

static int is_refused(size_t size) {
    if (at < 0)
        begin();
    if (size == MARK) {
        marks++;
        is_out = 0;
        return 0;
    }
    calls++;
    int is_its_turn = calls == at || (each && marks % 2 && is_copy());
    if (!is_its_turn && !is_out)
        return 0;
    is_out = stays;
    tell("refused", calls, 0, 0);
    errno = ENOMEM;
    return 1;
}

void *malloc(size_t size) { return is_refused(size) ? NULL : __libc_malloc(size); }

void *calloc(size_t count, size_t size) { return is_refused(count * size) ? NULL : __libc_calloc(count, size); }

void *realloc(void *old, size_t size) { return is_refused(size) ? NULL : __libc_realloc(old, size); }

void *aligned_alloc(size_t alignment, size_t size) { return is_refused(size) ? NULL : __libc_memalign(alignment, size); }

int posix_memalign(void **made, size_t alignment, size_t size) {
    if (is_refused(size))
        return ENOMEM;
    *made = __libc_memalign(alignment, size);
    return *made ? 0 : ENOMEM;
}

__attribute__((destructor)) static void end(void) {
    wait_for(0);
    tell("calls", calls, marks / 2, 0);
}
