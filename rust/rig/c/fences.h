/* fences.h - slices that end where the memory ends, and memory that may no more be written. Behind limits.h. */
#include <unistd.h>

/* So many bytes with no memory behind them, or none that may be touched. */
static uint8_t *fenced(const uint8_t *from, size_t n)
{
    size_t page = (size_t)sysconf(_SC_PAGESIZE), pages = (n + page - 1) / page * page;
    uint8_t *start = mmap(NULL, pages + page, PROT_READ | PROT_WRITE, MAP_PRIVATE | MAP_ANONYMOUS, -1, 0);
    if (start == MAP_FAILED || mprotect(start + pages, page, PROT_NONE) != 0)
        abort();
    memcpy(start + pages - n, from, n);
    return start + pages - n;
}

/* The same bytes: they can be read, and no more written. */
static void close_room(uint8_t *bytes, size_t n)
{
    size_t page = (size_t)sysconf(_SC_PAGESIZE);
    uint8_t *end = bytes + n;
    if (mprotect(end - (n + page - 1) / page * page, (n + page - 1) / page * page, PROT_READ) != 0)
        abort();
}
