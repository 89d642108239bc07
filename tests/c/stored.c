/* For tests/command: large stored images, the converter in plain C, and input in small pieces.
 *   stored make COUNT    writes a stored image with so many WDs of random addresses
 *   stored convert       as the program convert
 *   stored pieces SIZE   hands on standard input in pieces of this size, with a pause after each */
#define _POSIX_C_SOURCE 199309L

#include "images.h"
#include "plain.h"

#include <stdio.h>
#include <stdlib.h>
#include <string.h>
#include <time.h>

enum {
    MOST_WORDS = 8192
};

static void write_out(const uint8_t *bytes, size_t length)
{
    if (fwrite(bytes, 1, length, stdout) != length || fflush(stdout) != 0)
        exit(1);
}

/* Pseudo-random numbers by the splitmix64 recurrence. */
static uint64_t random_word(void)
{
    static uint64_t state = 1971;
    uint64_t z;

    state += 0x9e3779b97f4a7c15;
    z = state;
    z = (z ^ z >> 30) * 0xbf58476d1ce4e5b9;
    z = (z ^ z >> 27) * 0x94d049bb133111eb;
    return z ^ z >> 31;
}

static void make(size_t count)
{
    static const kuzhlemor_registers zero;
    uint8_t *image = malloc(IMAGE_ROOM(count));
    uint8_t *end;

    if (image == NULL)
        exit(1);
    end = put_stored_st(put_me(image, MOST_WORDS), &zero);
    for (size_t k = 0; k < count; k++) {
        uint32_t address = (uint32_t)(random_word() % MOST_WORDS);

        end = put_wd(end, address, random_word());
    }
    write_out(image, (size_t)(put_rn(end, 0) - image));
    free(image);
}

static void convert(void)
{
    size_t room = 1 << 20;
    size_t length = 0;
    uint8_t *image = malloc(room);
    size_t got;
    int64_t answer;

    /* ST_GAIN bytes of the block stay room for the conversion. */
    while (image != NULL && (got = fread(image + length, 1, room - ST_GAIN - length, stdin)) > 0) {
        length += got;
        if (length == room - ST_GAIN)
            image = realloc(image, room *= 2);
    }
    if (image == NULL)
        exit(1);
    answer = plain_convert(image, length + ST_GAIN);
    if (answer < 0)
        printf("refused %d\n", (int)-answer);
    else
        write_out(image, (size_t)answer);
    free(image);
}

static void pieces(size_t size)
{
    static uint8_t piece[4096];
    const struct timespec pause = {.tv_nsec = 1000000};
    size_t got;

    if (size > sizeof piece)
        exit(2);
    while ((got = fread(piece, 1, size, stdin)) > 0) {
        write_out(piece, got);
        nanosleep(&pause, NULL);
    }
}

int main(int argc, char **argv)
{
    if (argc == 3 && strcmp(argv[1], "make") == 0)
        make(strtoul(argv[2], NULL, 10));
    else if (argc == 2 && strcmp(argv[1], "convert") == 0)
        convert();
    else if (argc == 3 && strcmp(argv[1], "pieces") == 0)
        pieces(strtoul(argv[2], NULL, 10));
    else
        return 2;
    return 0;
}
