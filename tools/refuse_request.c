/* Refuses one request for memory of a program: preloaded, it lets malloc and realloc answer NULL at the request whose number
 * the variable REFUSED_REQUEST has, the first one being 1, and then makes the file that REFUSED_FILE names, if there is one. */
#define _GNU_SOURCE
#include <dlfcn.h>
#include <fcntl.h>
#include <stdlib.h>
#include <unistd.h>

static unsigned long requests;

static int is_refused(void)
{
    const char *number = getenv("REFUSED_REQUEST");
    if (number == NULL || ++requests != strtoul(number, NULL, 10))
        return 0;
    const char *path = getenv("REFUSED_FILE");
    int file = path == NULL ? -1 : open(path, O_CREAT | O_WRONLY, 0600);
    if (file >= 0)
        close(file);
    return 1;
}

void *malloc(size_t size)
{
    static void *(*next)(size_t);
    if (next == NULL)
        next = (void *(*)(size_t))dlsym(RTLD_NEXT, "malloc");
    return is_refused() ? NULL : next(size);
}

void *realloc(void *block, size_t size)
{
    static void *(*next)(void *, size_t);
    if (next == NULL)
        next = (void *(*)(void *, size_t))dlsym(RTLD_NEXT, "realloc");
    return is_refused() ? NULL : next(block, size);
}
