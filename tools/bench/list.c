// list FILE OUT: writes the listing of FILE, a Standard MIDI File, to OUT as the command does with
// --list, in pieces of 4,096 bytes. It believes that the file is whole.
#include <fcntl.h>
#include <stdint.h>
#include <stdio.h>
#include <stdlib.h>
#include <string.h>
#include <unistd.h>

enum { PIECE = 4096, MOST = 1 << 25 };

static unsigned char bytes[MOST + 1];
static char piece[PIECE];
static size_t filled;
static int out;

static void put(void)
{
    if (write(out, piece, filled) != (ssize_t)filled) {
        perror("list");
        exit(1);
    }
    filled = 0;
}

static void text(char c)
{
    piece[filled++] = c;
    if (filled == PIECE)
        put();
}

static void number(uint64_t n)
{
    char digits[20];
    int count = 0;
    do
        digits[count++] = '0' + n % 10;
    while (n /= 10);
    while (count)
        text(digits[--count]);
}

static void digits(unsigned char byte)
{
    text(' ');
    text("0123456789ABCDEF"[byte >> 4]);
    text("0123456789ABCDEF"[byte & 15]);
}

static uint32_t big(const unsigned char *at, int count)
{
    uint32_t n = 0;
    while (count--)
        n = n << 8 | *at++;
    return n;
}

static uint32_t quantity(const unsigned char **at)
{
    uint32_t n = 0;
    do
        n = n << 7 | (**at & 0x7F);
    while (*(*at)++ & 0x80);
    return n;
}

static void track(unsigned place, const unsigned char *at, const unsigned char *end)
{
    uint64_t tick = 0;
    unsigned char running = 0;
    while (at < end) {
        tick += quantity(&at);
        const unsigned char *event = at;
        number(place);
        text(' ');
        number(tick);
        if (*at >= 0xF0) {
            at += *at == 0xFF ? 2 : 1;
            uint32_t length = quantity(&at);
            at += length;
        } else {
            if (*at & 0x80)
                running = *at++;
            else
                digits(running);
            at += (running & 0xE0) == 0xC0 ? 1 : 2;
        }
        while (event < at)
            digits(*event++);
        text('\n');
    }
}

int main(int count, char **words)
{
    if (count != 3)
        return 2;
    int file = open(words[1], O_RDONLY);
    size_t length = 0;
    ssize_t more;
    while ((more = read(file, bytes + length, MOST + 1 - length)) > 0)
        length += more;
    out = open(words[2], O_WRONLY | O_CREAT | O_TRUNC, 0666);
    const unsigned char *begin = bytes + 8 + big(bytes + 4, 4), *end = bytes + length, *at;
    unsigned tracks = 0, place = 0;
    for (at = begin; at < end; at += 8 + big(at + 4, 4))
        tracks += memcmp(at, "MTrk", 4) == 0;
    static const char *const heads[] = { "format ", " tracks ", " division " };
    const unsigned numbers[] = { big(bytes + 8, 2), tracks, big(bytes + 12, 2) };
    for (int i = 0; i < 3; i++) {
        for (const char *c = heads[i]; *c; c++)
            text(*c);
        number(numbers[i]);
    }
    text('\n');
    for (at = begin; at < end; at += 8 + big(at + 4, 4))
        if (memcmp(at, "MTrk", 4) == 0)
            track(place++, at + 8, at + 8 + big(at + 4, 4));
    put();
    return 0;
}
