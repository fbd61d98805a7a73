/* A stream is read as far as is asked and not a byte farther, so that what stands behind a frame is
 * there for the next reader, and nothing waits for chips that nobody asked for. A regular file that
 * was opened here is nobody else's, and is read in one piece. */
#define _POSIX_C_SOURCE 200809L
#include "input.h"

#include <errno.h>
#include <fcntl.h>
#include <string.h>
#include <sys/stat.h>
#include <unistd.h>

void made_input(struct input *input)
{
    input->came = input->have = 0;
    input->own = input->ahead = input->failed = 0;
    input->ended = 1;
    input->began = input->descriptor = -1;
}

void put_byte(struct input *input, uint8_t byte)
{
    input->bytes[input->came++] = byte;
    input->have = input->came;
}

int open_input(struct input *input, const char *name)
{
    struct stat kind;
    made_input(input);
    input->ended = 0;
    input->own = strcmp(name, "-") != 0;
    input->descriptor = input->own ? open(name, O_RDONLY | O_NOCTTY | O_CLOEXEC) : STDIN_FILENO;
    if (input->descriptor < 0)
        return errno;
    if (fstat(input->descriptor, &kind) == 0 && S_ISREG(kind.st_mode)) {
        input->ahead = input->own;
        input->began = lseek(input->descriptor, 0, SEEK_CUR);
    }
    return 0;
}

void close_input(struct input *input)
{
    if (input->own)
        close(input->descriptor);
}

int input_has(struct input *input, size_t count)
{
    while (!input->ended && input->came < count) {
        size_t wanted = (input->ahead ? LOOKED_AT_MAX : count) - input->came;
        ssize_t got = read(input->descriptor, input->bytes + input->came, wanted);
        if (got > 0) {
            input->came += (size_t)got;
        } else if (got == 0 || errno != EINTR) {
            input->failed = got == 0 ? 0 : errno;
            input->ended = 1;
        }
    }
    if (input->have < count)
        input->have = input->came < count ? input->came : count;
    return input->have >= count;
}

long long left_over(const struct input *input, size_t used)
{
    struct stat kind;
    long long size;
    if (input->began < 0 || fstat(input->descriptor, &kind) != 0)
        return -1;
    size = (long long)kind.st_size - input->began;
    /* the file may have been cut since */
    return (size > (long long)input->came ? size : (long long)input->came) - (long long)used;
}
