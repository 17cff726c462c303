#define _POSIX_C_SOURCE 200809L
#define _XOPEN_SOURCE 700
#include "files.h"
#include "messages.h"

#include <errno.h>
#include <fcntl.h>
#include <stdio.h>
#include <stdlib.h>
#include <string.h>
#include <sys/stat.h>
#include <unistd.h>

void hold_standard_streams(void)
{
    for (int stream = 0; stream <= 2; stream++)
        if (fcntl(stream, F_GETFD) == -1 && open("/dev/null", O_RDONLY) != stream)
            exit(STATUS_TROUBLE);
}

bool is_standard(const char *file)
{
    return !file || strcmp(file, "-") == 0;
}

const char *input_name(const char *file)
{
    return is_standard(file) ? "standard input" : file;
}

/* Reads all that a stream has, and one byte more than is allowed at most. */
static bool read_stream(FILE *stream, struct buffer *bytes)
{
    uint8_t part[65536];
    size_t got;
    while (bytes->length <= MOST_FILE_BYTES && (got = fread(part, 1, sizeof part, stream)) > 0)
        append(bytes, (struct bytes){part, got});
    return !ferror(stream);
}

enum status read_file(const char *file, struct buffer *bytes)
{
    static bool is_read;
    bool standard = is_standard(file);
    if (standard && is_read)
        return trouble(NULL, "standard input can be read only once", "");
    is_read = is_read || standard;
    if (standard && isatty(STDIN_FILENO))
        note(NULL, 0, text_bytes("reading standard input"));
    FILE *stream = standard ? stdin : fopen(file, "rb");
    if (!stream)
        return trouble(file, "", strerror(errno));
    errno = 0;
    bool good = read_stream(stream, bytes);
    int error = errno;
    if (!standard)
        fclose(stream);
    if (!good)
        return trouble(input_name(file), "cannot be read: ", strerror(error));
    if (bytes->length > MOST_FILE_BYTES)
        return trouble(input_name(file), "is larger than 64 MiB: split it", "");
    return STATUS_DONE;
}

static bool write_all(int to, struct bytes bytes)
{
    while (bytes.length > 0) {
        ssize_t put = write(to, bytes.at, bytes.length);
        if (put < 0 && errno == EINTR)
            continue;
        if (put <= 0)
            return false;
        bytes.at += put;
        bytes.length -= (size_t)put;
    }
    return true;
}

/* Writes to what is no plain file: a terminal, a pipe, a device. */
static enum status write_through(int to, const char *name, struct bytes bytes, bool is_bundle)
{
    if (is_bundle && isatty(to))
        return trouble(NULL, "a bundle is not written to a terminal: give -o FILE, or pipe it into another command", "");
    return write_all(to, bytes) ? STATUS_DONE : trouble(name, "cannot be written: ", strerror(errno));
}

/* The name of the file that stands in for a file until it is whole. */
static char *temporary_name(const char *file)
{
    struct buffer name = {0};
    append_text(&name, file);
    append_text(&name, ".XXXXXX");
    return taken_string(&name);
}

static mode_t new_file_mode(void)
{
    mode_t mask = umask(0);
    umask(mask);
    return 0666 & ~mask;
}

/* Gives a new file the mode of the one that it replaces, or of a new one, and its owner where that is allowed. */
static bool take_over(int to, const struct stat *before)
{
    bool given = !before || fchown(to, before->st_uid, before->st_gid) == 0 || errno == EPERM;
    return given && fchmod(to, before ? before->st_mode & 0777 : new_file_mode()) == 0;
}

/* Writes a temporary file beside a file, and renames it. `before` is about the file that is there, or NULL. */
static enum status replace_file(const char *file, struct bytes bytes, const struct stat *before)
{
    char *temporary = temporary_name(file);
    int to = mkstemp(temporary);
    bool good = to >= 0 && write_all(to, bytes) && take_over(to, before) && fsync(to) == 0;
    int error = errno;
    if (to >= 0 && close(to) != 0 && good) {
        good = false;
        error = errno;
    }
    if (good && rename(temporary, file) != 0) {
        good = false;
        error = errno;
    }
    if (!good && to >= 0)
        unlink(temporary);
    free(temporary);
    return good ? STATUS_DONE : trouble(file, "cannot be written: ", strerror(error));
}

enum status write_file(const char *file, struct bytes bytes, bool is_bundle)
{
    struct stat about;
    if (is_standard(file))
        return write_through(STDOUT_FILENO, "standard output", bytes, is_bundle);
    if (stat(file, &about) != 0)
        return replace_file(file, bytes, NULL);
    if (S_ISREG(about.st_mode) && access(file, W_OK) != 0)
        return trouble(file, "cannot be written: ", strerror(errno));
    if (S_ISREG(about.st_mode)) {
        char *real = realpath(file, NULL);
        enum status status = replace_file(real ? real : file, bytes, &about);
        free(real);
        return status;
    }
    int to = open(file, O_WRONLY);
    if (to < 0)
        return trouble(file, "cannot be written: ", strerror(errno));
    enum status status = write_through(to, file, bytes, is_bundle);
    if (close(to) != 0 && status == STATUS_DONE)
        status = trouble(file, "cannot be written: ", strerror(errno));
    return status;
}

enum status finish_output(enum status status)
{
    errno = 0;
    if (fflush(stdout) == 0 && !ferror(stdout))
        return status;
    return trouble("standard output", "cannot be written: ", strerror(errno));
}
