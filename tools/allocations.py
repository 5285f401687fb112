"""A small library that is put in front of malloc and refuses allocations; cc compiles it."""
import os
import subprocess

SHIM = r'''
#define _GNU_SOURCE
#include <dlfcn.h>
#include <stdio.h>
#include <stdlib.h>
static long seen;
static int is_refused(size_t size) {
    const char *which = getenv("REFUSED"), *least = getenv("LEAST");
    return ++seen == (which ? atol(which) : 0) || (least && size >= (size_t)atol(least));
}
void *malloc(size_t size) {
    static void *(*real)(size_t);
    if (!real) real = (void *(*)(size_t))dlsym(RTLD_NEXT, "malloc");
    return is_refused(size) ? NULL : real(size);
}
void *realloc(void *block, size_t size) {
    static void *(*real)(void *, size_t);
    if (!real) real = (void *(*)(void *, size_t))dlsym(RTLD_NEXT, "realloc");
    return is_refused(size) ? NULL : real(block, size);
}
__attribute__((destructor)) static void tell(void) {
    FILE *count = fopen(getenv("COUNT"), "w");
    if (count) { fprintf(count, "%ld", seen); fclose(count); }
}
'''


def refusing(folder, which=None, least=None):
    """What the environment of a program has to be, so that its allocation of this number, or each of so many bytes or more,
    is refused. How many there were stands in the file `count` of the folder when the program has ended."""
    library = os.path.join(folder, 'shim.so')
    if not os.path.exists(library):
        source = os.path.join(folder, 'shim.c')
        with open(source, 'w') as file:
            file.write(SHIM)
        subprocess.run(['cc', '-shared', '-fPIC', '-O1', '-o', library, source, '-ldl'], check=True)
    told = {'REFUSED': which, 'LEAST': least}
    return dict(os.environ, LD_PRELOAD=library, COUNT=os.path.join(folder, 'count'),
                **{name: str(value) for name, value in told.items() if value is not None})


def counted(folder):
    """How many allocations the last program asked for."""
    with open(os.path.join(folder, 'count')) as file:
        return int(file.read())
