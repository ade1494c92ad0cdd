/* Standard input and output that follow the settings of a run:

   READ_BY      maximum number of bytes of a read
   READ_CUTS    two offsets in the input that no read passes
   READ_FAILS   number of reads before the one that fails
   WRITE_TAKING maximum number of bytes that a write accepts
   WRITE_ROOM   maximum number of bytes that all writes together accept
   WRITE_FAILS  number of writes before the one that fails

   Without a setting, a read returns all bytes and a write accepts all. For sockets, RECV_FAILS and SEND_FAILS are the
   numbers of calls before the one that fails, and RECV_ENDS is the number of calls before the one that returns the end
   of input. Each call on standard input and output is recorded on the descriptor DEVICES_TOLD, in one line:
   `read ROOM GIVEN` and `write BYTES TAKEN`, with `failed` in place of the count if the call fails. */
#include <errno.h>
#include <stdio.h>
#include <stdlib.h>
#include <sys/socket.h>
#include <sys/syscall.h>
#include <unistd.h>

#define ALL (1L << 40)

static long reads, writes, given, taken, receptions, sendings;

static long set(const char *name, long usual) {
    const char *value = getenv(name);
    return value ? atol(value) : usual;
}

static void tell(const char *text, size_t size) { syscall(SYS_write, (int)set("DEVICES_TOLD", 2), text, size); }

static void tell_count(long count) {
    char text[32];
    tell(text, count < 0 ? snprintf(text, sizeof text, "failed ") : snprintf(text, sizeof text, "%ld ", count));
}

static void tell_bytes(const unsigned char *bytes, size_t size) {
    static char text[1 << 20];
    size_t at = 0;
    for (size_t i = 0; i < size && at + 2 < sizeof text; i++)
        at += sprintf(text + at, "%02x", bytes[i]);
    tell("write ", 6);
    tell(size ? text : "-", size ? at : 1);
    tell(" ", 1);
}

/* Returns the maximum number of bytes of the next read. */
static long most(long room) {
    long by = set("READ_BY", ALL), first = 0, second = 0;
    const char *cuts = getenv("READ_CUTS");
    if (cuts)
        sscanf(cuts, "%ld %ld", &first, &second);
    if (given < first)
        by = by < first - given ? by : first - given;
    else if (given < second)
        by = by < second - given ? by : second - given;
    return by < room ? by : room;
}

ssize_t read(int file, void *buffer, size_t room) {
    if (file != 0)
        return syscall(SYS_read, file, buffer, room);
    char text[32];
    tell(text, snprintf(text, sizeof text, "read %zu ", room));
    if (reads++ == set("READ_FAILS", -1)) {
        tell_count(-1);
        errno = EIO;
        return -1;
    }
    ssize_t count = syscall(SYS_read, file, buffer, most(room));
    given += count > 0 ? count : 0;
    tell_count(count);
    return count;
}

static ssize_t wrote(int file, const void *bytes, size_t size) {
    if (file != 1)
        return syscall(SYS_write, file, bytes, size);
    tell_bytes(bytes, size);
    if (writes++ == set("WRITE_FAILS", -1)) {
        tell_count(-1);
        errno = EIO;
        return -1;
    }
    long taking = set("WRITE_TAKING", ALL), room = set("WRITE_ROOM", ALL) - taken;
    long count = (long)size < taking ? (long)size : taking;
    count = count < room ? count : room;
    count = count ? syscall(SYS_write, file, bytes, count) : 0;
    taken += count > 0 ? count : 0;
    tell_count(count);
    return count;
}

ssize_t write(int file, const void *bytes, size_t size) { return wrote(file, bytes, size); }

ssize_t __write(int file, const void *bytes, size_t size) { return wrote(file, bytes, size); }

ssize_t recv(int socket, void *buffer, size_t room, int flags) {
    long number = receptions++;
    if (number == set("RECV_FAILS", -1)) {
        errno = ECONNRESET;
        return -1;
    }
    return number == set("RECV_ENDS", -1) ? 0 : syscall(SYS_recvfrom, socket, buffer, room, flags, NULL, NULL);
}

ssize_t send(int socket, const void *bytes, size_t size, int flags) {
    if (sendings++ == set("SEND_FAILS", -1)) {
        errno = EPIPE;
        return -1;
    }
    return syscall(SYS_sendto, socket, bytes, size, flags, NULL, 0);
}
