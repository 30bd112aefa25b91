// Refuses one allocation of a program, for tools/fail_alloc.sh.
//
// It is preloaded. Of the calls of malloc, calloc and realloc that come from the program's own code, number FAIL_ALLOC_AT, from 1, is
// refused; 0 refuses none. Calls from within libc and other libraries are neither counted nor refused. When the program ends, the file
// FAIL_ALLOC_REPORT gets the number of calls and whether one was refused.
#define _GNU_SOURCE
#include <errno.h>
#include <fcntl.h>
#include <link.h>
#include <stdatomic.h>
#include <stdint.h>
#include <stdio.h>
#include <stdlib.h>
#include <sys/syscall.h>
#include <unistd.h>

extern void *__libc_malloc(size_t);
extern void *__libc_calloc(size_t, size_t);
extern void *__libc_realloc(void *, size_t);

// Where the program's own code lies.
static uintptr_t code_begins, code_ends;
static long refused_call;
static atomic_long calls, refusals;

// The program is the first object that is told of.
static int keep_program(struct dl_phdr_info *object, size_t size, void *unused) {
    (void)size;
    (void)unused;
    for (int i = 0; i < object->dlpi_phnum; i++) {
        const ElfW(Phdr) *part = &object->dlpi_phdr[i];
        if (part->p_type != PT_LOAD || !(part->p_flags & PF_X))
            continue;
        uintptr_t begins = object->dlpi_addr + part->p_vaddr;
        if (code_ends == 0 || begins < code_begins)
            code_begins = begins;
        if (begins + part->p_memsz > code_ends)
            code_ends = begins + part->p_memsz;
    }
    return 1;
}

__attribute__((constructor)) static void begin(void) {
    const char *number = getenv("FAIL_ALLOC_AT");
    refused_call = number ? atol(number) : 0;
    dl_iterate_phdr(keep_program, NULL);
}

// Tells what was counted.
__attribute__((destructor)) static void end(void) {
    const char *path = getenv("FAIL_ALLOC_REPORT");
    if (!path)
        return;
    char text[64];
    int length = snprintf(text, sizeof text, "%ld %ld\n", atomic_load(&calls), atomic_load(&refusals));
    int file = open(path, O_WRONLY | O_CREAT | O_TRUNC, 0600);
    if (file < 0 || write(file, text, (size_t)length) != length)
        abort();
    close(file);
}

// A program may also end by this call, at which nothing else is run.
void _exit(int status) {
    end();
    syscall(SYS_exit_group, status);
    __builtin_unreachable();
}

// Whether this call is the one that is refused.
static int is_refused(void *caller) {
    uintptr_t place = (uintptr_t)caller;
    if (place < code_begins || place >= code_ends)
        return 0;
    if (atomic_fetch_add(&calls, 1) + 1 != refused_call)
        return 0;
    atomic_fetch_add(&refusals, 1);
    errno = ENOMEM;
    return 1;
}

void *malloc(size_t size) {
    return is_refused(__builtin_return_address(0)) ? NULL : __libc_malloc(size);
}

void *calloc(size_t count, size_t size) {
    return is_refused(__builtin_return_address(0)) ? NULL : __libc_calloc(count, size);
}

void *realloc(void *old, size_t size) {
    return is_refused(__builtin_return_address(0)) ? NULL : __libc_realloc(old, size);
}
