/* Shortens, interrupts and fails reads and writes of a program that is run with this library
   preloaded. Of its input, standard input or, if SOCKET is set, each socket, a read gives at most
   SIZE bytes, and after READS reads it fails. Standard output has ROOM for so many bytes, each
   socket for SENDS. The first INTERRUPTIONS writes to either output are interrupted. */
#include <errno.h>
#include <stdlib.h>
#include <sys/socket.h>
#include <sys/stat.h>
#include <sys/syscall.h>
#include <unistd.h>

static long reads, room, sends, interruptions[3];

static long setting(const char *name)
{
    return getenv(name) ? atol(getenv(name)) : -1;
}

__attribute__((constructor)) static void begin(void)
{
    reads = setting("READS");
    room = setting("ROOM");
    sends = setting("SENDS");
    interruptions[1] = interruptions[2] = setting("INTERRUPTIONS");
}

static int is_socket(int file)
{
    struct stat found;
    return !fstat(file, &found) && S_ISSOCK(found.st_mode);
}

static long failed(int error)
{
    errno = error;
    return -1;
}

ssize_t recv(int file, void *bytes, size_t size, int flags)
{
    if (getenv("SOCKET") ? is_socket(file) : file == 0) {
        if (reads-- == 0)
            return failed(EIO);
        if (setting("SIZE") > 0 && size > (size_t)setting("SIZE"))
            size = (size_t)setting("SIZE");
    }
    if (is_socket(file))
        return syscall(SYS_recvfrom, file, bytes, size, flags, NULL, NULL);
    return syscall(SYS_read, file, bytes, size);
}

ssize_t read(int file, void *bytes, size_t size)
{
    return recv(file, bytes, size, 0);
}

/* Takes some room, if there is so much. */
static int is_full(long *left, size_t size)
{
    if (*left >= 0 && (size_t)*left < size)
        return 1;
    *left -= *left >= 0 ? (long)size : 0;
    return 0;
}

ssize_t send(int file, const void *bytes, size_t size, int flags)
{
    if ((file == 1 || file == 2) && interruptions[file] > 0 && interruptions[file]--)
        return failed(EINTR);
    if (file == 1 && is_full(&room, size))
        return failed(ENOSPC);
    if (!is_socket(file))
        return syscall(SYS_write, file, bytes, size);
    if (is_full(&sends, size))
        return failed(ECONNRESET);
    return syscall(SYS_sendto, file, bytes, size, flags, NULL, 0);
}

ssize_t write(int file, const void *bytes, size_t size)
{
    return send(file, bytes, size, 0);
}
