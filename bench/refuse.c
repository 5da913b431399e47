/* Stands before the system's malloc and realloc (LD_PRELOAD): refuses the one of number REFUSE_AT, counted from 1, or with REFUSE_ON
   that one and all behind it. With REFUSE_COUNT it writes into the file of that name how many there were. */
#include <errno.h>
#include <stdio.h>
#include <stdlib.h>

extern void *__libc_malloc(size_t size);
extern void *__libc_realloc(void *at, size_t size);

static int begun, all_behind;
static unsigned long asked, refused;
static const char *count_place;

static unsigned long number_of(const char *name)
{
    const char *text = getenv(name);
    return text ? strtoul(text, 0, 10) : 0;
}

static int is_refused(void)
{
    if (!begun)
        return 0;
    asked++;
    if (refused == 0 || asked < refused || (asked > refused && !all_behind))
        return 0;
    errno = ENOMEM;
    return 1;
}

__attribute__((constructor)) static void begin(void)
{
    refused = number_of("REFUSE_AT");
    all_behind = getenv("REFUSE_ON") != 0;
    count_place = getenv("REFUSE_COUNT");
    begun = 1;
}

__attribute__((destructor)) static void end(void)
{
    begun = 0;
    FILE *file = count_place ? fopen(count_place, "w") : 0;
    if (file) {
        fprintf(file, "%lu\n", asked);
        fclose(file);
    }
}

void *malloc(size_t size)
{
    return is_refused() ? 0 : __libc_malloc(size);
}

void *realloc(void *at, size_t size)
{
    return is_refused() ? 0 : __libc_realloc(at, size);
}
