/* The work of `case_rooms` (`append PATH COUNT`) in C, by the same calls to the file: an empty journal, and so many records with bodies of 300 octets.
   It prints the same. */
#include <fcntl.h>
#include <stdio.h>
#include <stdlib.h>
#include <string.h>
#include <unistd.h>

#define SIZE 300
#define LENGTH 4
#define NAME "GDOIJRNL"
/* the place of the first record's gate */
#define FIRST 9

static void must(int done)
{
    if (!done)
        exit(1);
}

/* Writes octets at a place, and waits until all is on the device. */
static void write_through(int file, off_t at, const unsigned char *octets, size_t size)
{
    must(pwrite(file, octets, size, at) == (ssize_t)size);
    must(fsync(file) == 0);
}

/* Writes a piece after a closed gate, and then opens that gate. */
static void write_gated(int file, off_t gate, const unsigned char *piece, size_t size)
{
    write_through(file, gate + 1, piece, size);
    write_through(file, gate, (const unsigned char *)"\1", 1);
}

int main(int words, char **word)
{
    unsigned char piece[LENGTH + SIZE + 1] = {0, 0, SIZE >> 8, SIZE & 255};
    off_t gate = FIRST;

    must(words == 3);
    unsigned long count = strtoul(word[2], NULL, 10);
    int file = open(word[1], O_RDWR | O_CREAT | O_CLOEXEC, 0666);
    must(file >= 0);
    must(ftruncate(file, 0) == 0);
    write_through(file, 0, (const unsigned char *)"", 1);
    write_gated(file, 0, (const unsigned char *)NAME, sizeof NAME);
    for (unsigned long number = 0; number < count; number++) {
        memset(piece + LENGTH, number % 256, SIZE);
        write_gated(file, gate, piece, sizeof piece);
        gate += sizeof piece;
    }
    printf("append %lu\n", count);
    return 0;
}
