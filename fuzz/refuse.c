/* Refuses requests for memory of the program that it is preloaded into. Requests are counted from 1, those of the C
 * library among them. REFUSE_AT=N refuses the Nth, and with REFUSE_ON=1 all that follow. When the program ends by
 * itself, the count is written to the file REFUSE_COUNT, if one is named.
 */
#include <errno.h>
#include <fcntl.h>
#include <stdlib.h>
#include <unistd.h>

extern void *__libc_malloc(size_t size);
extern void *__libc_calloc(size_t count, size_t size);
extern void *__libc_realloc(void *old, size_t size);

static unsigned long requests, refused;
static int goes_on, is_read;

static int is_refused(void)
{
    if (!is_read) {
        const char *at = getenv("REFUSE_AT"), *on = getenv("REFUSE_ON");
        refused = at ? strtoul(at, NULL, 10) : 0;
        goes_on = on && *on == '1';
        is_read = 1;
    }
    requests++;
    if (!refused || (goes_on ? requests < refused : requests != refused))
        return 0;
    errno = ENOMEM;
    return 1;
}

void *malloc(size_t size)
{
    return is_refused() ? NULL : __libc_malloc(size);
}

void *calloc(size_t count, size_t size)
{
    return is_refused() ? NULL : __libc_calloc(count, size);
}

void *realloc(void *old, size_t size)
{
    return is_refused() ? NULL : __libc_realloc(old, size);
}

__attribute__((destructor)) static void write_count(void)
{
    char digits[24];
    int at = sizeof digits, file;
    const char *name = getenv("REFUSE_COUNT");
    if (!name || (file = open(name, O_WRONLY | O_CREAT | O_TRUNC, 0644)) < 0)
        return;
    do
        digits[--at] = '0' + requests % 10;
    while (requests /= 10);
    if (write(file, digits + at, sizeof digits - at) < 0)
        _exit(99);
    close(file);
}
