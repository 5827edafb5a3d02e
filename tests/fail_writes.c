// Has each write to a socket fail whose octets hold the text of the variable FAIL_TEXT. It is preloaded by try_log, and no part of the program.
#define _GNU_SOURCE
#include <dlfcn.h>
#include <errno.h>
#include <stdlib.h>
#include <string.h>
#include <sys/socket.h>

static int fails(const void *octets, size_t count) {
    const char *text = getenv("FAIL_TEXT");
    return text && memmem(octets, count, text, strlen(text)) != NULL;
}

ssize_t sendto(int file, const void *octets, size_t count, int flags, const struct sockaddr *to, socklen_t size) {
    ssize_t (*behind)(int, const void *, size_t, int, const struct sockaddr *, socklen_t) = dlsym(RTLD_NEXT, "sendto");
    if (!fails(octets, count)) return behind(file, octets, count, flags, to, size);
    errno = EIO;
    return -1;
}

ssize_t send(int file, const void *octets, size_t count, int flags) {
    return sendto(file, octets, count, flags, NULL, 0);
}
