// What the program asks of the system, which for an engine is the JavaScript around it, its host.
#include "types.h"

#define FROM_HOST(name) __attribute__((import_module("host"), import_name(#name)))
#define EXPORTED(name) __attribute__((export_name(#name)))

enum { NO_SUCH_FILE = 2, DEVICE_FAILED = 5, KEYS = 0 };

// The host parks the program where it asks for keys and has none: see engine.mjs. So keys have a call of their own.
FROM_HOST(read_keys) count host_read_keys(byte *to, size most);
FROM_HOST(read_file) count host_read_file(int file, byte *to, size most);
FROM_HOST(write) count host_write(int file, const byte *from, size length);
FROM_HOST(open) int host_open(const char *path, size length);
FROM_HOST(close) int host_close(int file);
FROM_HOST(argument) count host_argument(size number, byte *to, size most);

static int last_error;

int rattle_errno(void) { return last_error; }

void rattle_set_errno(int error) { last_error = error; }

// Answers what a device answered, of which a number below 0 says that it failed.
static count told_by_device(count answer) {
    if (answer >= 0) return answer;
    last_error = DEVICE_FAILED;
    return -1;
}

count read(int file, byte *to, size most) {
    return told_by_device(file == KEYS ? host_read_keys(to, most) : host_read_file(file, to, most));
}

count write(int file, const byte *from, size length) { return told_by_device(host_write(file, from, length)); }

int open(const char *path, int flags, ...) {
    (void)flags;
    size length = 0;
    while (path[length]) length++;
    int file = host_open(path, length);
    if (file < 0) last_error = NO_SUCH_FILE;
    return file;
}

int close(int file) { return host_close(file); }

count rattle_arg(size number, byte *to, size most) { return host_argument(number, to, most); }

// There is no environment.
count rattle_env(const char *name, byte *to, size most) {
    (void)name, (void)to, (void)most;
    return -1;
}

count rattle_env_at(size number, byte *to, size most) {
    (void)number, (void)to, (void)most;
    return -1;
}

// There are no signals, whose handlers are numbers here.
size __sysv_signal(int number, size handler) {
    (void)number, (void)handler;
    return 0;
}

int program(void) __asm__("main");

EXPORTED(start) int start(void) { return program(); }

// The stack of a program that is parked is kept here: where it begins now, where the room ends, and the room.
static struct {
    unsigned begin, end;
    byte room[65536];
} parking;

EXPORTED(parking_place) void *parking_place(void) {
    parking.begin = (unsigned)(size)parking.room;
    parking.end = parking.begin + sizeof parking.room;
    return &parking;
}
