/* Loaded into a program (LD_PRELOAD), refuses one of its requests for memory, counted from where
 * `main` begins. REFUSE has the number of that request, or 0 for none, and REFUSE_TOLD names the
 * file that gets the number of all. */
#define _GNU_SOURCE
#include <dlfcn.h>
#include <errno.h>
#include <stdio.h>
#include <stdlib.h>

/* What the C library itself has for its users' names. */
extern void *__libc_malloc(size_t size);
extern void *__libc_calloc(size_t count, size_t size);
extern void *__libc_realloc(void *block, size_t size);
extern void *__libc_memalign(size_t alignment, size_t size);

typedef int program(int count, char **words, char **variables);

static program *its_main;
static int has_begun;
static unsigned long refused, requests;

/* Counts a request, and tells whether it is the refused one. */
static int is_refused(void) { return has_begun && ++requests == refused && (errno = ENOMEM); }

void *malloc(size_t size) { return is_refused() ? NULL : __libc_malloc(size); }

void *calloc(size_t count, size_t size) {
    return is_refused() ? NULL : __libc_calloc(count, size);
}

void *realloc(void *block, size_t size) {
    return is_refused() ? NULL : __libc_realloc(block, size);
}

void *memalign(size_t alignment, size_t size) {
    return is_refused() ? NULL : __libc_memalign(alignment, size);
}

void *aligned_alloc(size_t alignment, size_t size) { return memalign(alignment, size); }

int posix_memalign(void **block, size_t alignment, size_t size) {
    void *found = memalign(alignment, size);
    if (found) *block = found;
    return found ? 0 : ENOMEM;
}

/* Runs the program, and writes the number of its requests. */
static int counted(int count, char **words, char **variables) {
    const char *number = getenv("REFUSE"), *told = getenv("REFUSE_TOLD");
    refused = number ? strtoul(number, NULL, 10) : 0;
    has_begun = 1;
    int status = its_main(count, words, variables);
    has_begun = 0;
    FILE *file = told ? fopen(told, "w") : NULL;
    if (file) fprintf(file, "%lu\n", requests), fclose(file);
    return status;
}

typedef void step(void);

/* Stands before the C library's function of this name, which gets `counted` in place of `main`. */
int __libc_start_main(program *main, int count, char **words, step *init, step *fini, step *unload,
                      void *stack) {
    int (*start)(program *, int, char **, step *, step *, step *, void *);
    *(void **)&start = dlsym(RTLD_NEXT, "__libc_start_main");
    its_main = main;
    return start(counted, count, words, init, fini, unload, stack);
}
