/* Reads a file into memory of its own, in large pages where the system gives them, and does nothing with it:
 * what keeping a file's bytes costs by itself. */
#include <fcntl.h>
#include <stdlib.h>
#include <sys/mman.h>
#include <sys/stat.h>
#include <unistd.h>

#define LARGE_PAGE ((size_t)2 << 20)

int main(int count, char **words)
{
    struct stat told;
    int file = count == 2 ? open(words[1], O_RDONLY) : -1;
    if (file < 0 || fstat(file, &told) != 0)
        return 1;
    size_t room = ((size_t)told.st_size + LARGE_PAGE) & ~(LARGE_PAGE - 1);
    char *bytes = aligned_alloc(LARGE_PAGE, room);
    if (bytes == NULL)
        return 1;
    madvise(bytes, room, MADV_HUGEPAGE);
    size_t filled = 0;
    while (filled < room) {
        ssize_t got = read(file, bytes + filled, room - filled);
        if (got < 0)
            return 1;
        if (got == 0)
            break;
        filled += (size_t)got;
    }
    return filled == (size_t)told.st_size ? 0 : 1;
}
