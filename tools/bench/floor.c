// floor FILE OUT: writes FILE, a Standard MIDI File that the command wrote, to OUT in the same
// pieces as the command does, and prints the wall time and the processor time of the writes in
// microseconds, and their number. OUT is then the same file.
#define _GNU_SOURCE
#include <fcntl.h>
#include <stdint.h>
#include <stdio.h>
#include <stdlib.h>
#include <sys/resource.h>
#include <time.h>
#include <unistd.h>

enum { BEGIN = 29, LENGTH_AT = 18, MOST = 1 << 26 };

static unsigned char bytes[MOST];
static uint32_t ends[MOST / 3];

// The end of the delta time and message, or filler, that begins at this place.
static size_t piece_end(size_t at)
{
    while (bytes[at] & 0x80)
        at++;
    at++;
    switch (bytes[at] & 0xF0) {
    case 0xC0:
        return at + 2;
    case 0xF0:
        return at + 3 + bytes[at + 2];
    default:
        return at + 3;
    }
}

static double wall(void)
{
    struct timespec now;
    clock_gettime(CLOCK_MONOTONIC, &now);
    return now.tv_sec * 1e6 + now.tv_nsec / 1e3;
}

static double processor(void)
{
    struct rusage used;
    getrusage(RUSAGE_SELF, &used);
    return (used.ru_utime.tv_sec + used.ru_stime.tv_sec) * 1e6 + used.ru_utime.tv_usec
        + used.ru_stime.tv_usec;
}

static void put(int file, const void *piece, size_t length)
{
    if (write(file, piece, length) != (ssize_t)length) {
        perror("floor");
        exit(1);
    }
}

int main(int count, char **words)
{
    if (count != 3)
        return 2;
    FILE *file = fopen(words[1], "rb");
    size_t length = file ? fread(bytes, 1, MOST, file) : 0, pieces = 0;
    if (length < BEGIN || length == MOST)
        return 2;
    ends[pieces++] = BEGIN;
    while (ends[pieces - 1] < length) {
        ends[pieces] = piece_end(ends[pieces - 1]);
        pieces++;
    }
    uint32_t size;
    __builtin_memcpy(&size, bytes + LENGTH_AT, 4);
    __builtin_memset(bytes + LENGTH_AT, 0, 4);

    double began = wall(), used = processor();
    int out = open(words[2], O_WRONLY | O_CREAT | O_TRUNC | O_CLOEXEC, 0666);
    size_t at = 0;
    for (size_t piece = 0; piece < pieces; piece++) {
        put(out, bytes + at, ends[piece] - at);
        at = ends[piece];
    }
    lseek(out, LENGTH_AT, SEEK_SET);
    put(out, &size, 4);
    lseek(out, 0, SEEK_END);
    printf("%.0f %.0f %zu\n", wall() - began, processor() - used, pieces + 1);
    return 0;
}
