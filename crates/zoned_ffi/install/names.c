/* Zones by name, and numbers in words: C code over the calls of zoned_ffi.h, outside the proof. zoned.h says what each call does. */
#define _GNU_SOURCE
#include "../include/zoned.h"

#include <errno.h>
#include <fcntl.h>
#include <stdlib.h>
#include <string.h>
#include <unistd.h>

static const char USUAL_FOLDERS[] = "/usr/share/zoneinfo:/usr/lib/zoneinfo:/usr/share/lib/zoneinfo:/etc/zoneinfo";

static const char *folders_of(const char *folders) {
    const char *const set = folders ? folders : secure_getenv("TZDIR");
    return set && (folders || *set) ? set : USUAL_FOLDERS;
}

/* Whether a name stays below the folder that it is looked up in: no part of it is empty, "." or "..". */
static int stays_below(const char *name) {
    for (;;) {
        const size_t len = strcspn(name, "/");
        if (len == 0 || (len == 1 && name[0] == '.') || (len == 2 && name[0] == '.' && name[1] == '.')) return 0;
        if (!name[len]) return 1;
        name += len + 1;
    }
}

/* Whether an open file is a regular one. A folder can't be read, a pipe has no place, and a device has bytes but no size. (fstat would
   say so, but by a name that no C library before glibc 2.33 has, and the package for Python runs from 2.17 on.) errno is ENOENT if it
   isn't one, and says why if it can't be read. */
static int is_regular(int file) {
    char byte;
    const off_t size = lseek(file, 0, SEEK_END);
    ssize_t got;
    if (size >= 0 && lseek(file, 0, SEEK_SET) == 0) {
        got = read(file, &byte, 1);
        if (got < 0 && errno != EISDIR) return 0;
        if ((got == 0 || (got > 0 && size > 0)) && lseek(file, 0, SEEK_SET) == 0) return 1;
    }
    errno = ENOENT;
    return 0;
}

/* Opens a regular file in the first folder of a list, and moves on in the list. Returns -1 if it can't, and errno says why. */
static int open_in_first(const char **folders, const char *name) {
    char path[4096];
    const char *const folder = *folders;
    const size_t len = strcspn(folder, ":"), name_len = strlen(name);
    int file, reason;
    *folders += len + (folder[len] == ':');
    errno = ENOENT;
    if (len == 0 || len + 1 + name_len >= sizeof path) return -1;
    memcpy(path, folder, len);
    path[len] = '/';
    memcpy(path + len + 1, name, name_len + 1);
    file = open(path, O_RDONLY | O_CLOEXEC | O_NOCTTY | O_NONBLOCK);
    if (file < 0) return -1;
    if (is_regular(file)) return file;
    reason = errno;
    close(file);
    errno = reason;
    return -1;
}

/* Reads an open file, and opens the zone of its bytes. */
static uint32_t open_file(int file, struct zoned_zone *out) {
    unsigned char *bytes = NULL, *more;
    size_t len = 0, room = 0;
    uint32_t number;
    ssize_t got;
    int reason;
    for (;;) {
        if (len == room) {
            room = 2 * room + 8192;
            more = realloc(bytes, room);
            number = ZONED_OUT_OF_MEMORY;
            if (!more) break;
            bytes = more;
        }
        got = read(file, bytes + len, room - len);
        number = ZONED_UNREADABLE_FILE;
        if (got < 0 && errno != EINTR) break;
        if (got > 0) len += (size_t)got;
        if (got != 0) continue;
        number = zoned_open(ZONED_FILE, bytes, len, out);
        break;
    }
    reason = errno;
    free(bytes);
    errno = reason;
    return number;
}

uint32_t zoned_open_name(const char *name, const char *folders, struct zoned_zone *out) {
    uint32_t number = ZONED_NO_SUCH_ZONE;
    int file, reason = ENOENT;
    if (!stays_below(name)) return number;
    for (folders = folders_of(folders); *folders;) {
        file = open_in_first(&folders, name);
        if (file >= 0) {
            number = open_file(file, out);
            reason = errno;
            close(file);
            errno = reason;
            return number;
        }
        if (errno == ENOENT || errno == ENOTDIR || errno == ENAMETOOLONG) continue;
        number = ZONED_UNREADABLE_FILE;
        reason = errno;
    }
    errno = reason;
    return number;
}

size_t zoned_tz_version(const char *folders, char *text, size_t text_len) {
    /* zic's input as one file, which begins "# version 2026a", and a file of the version itself. */
    static const struct {
        const char *name, *before;
    } FILES[] = {{"tzdata.zi", "# version "}, {"+VERSION", ""}};
    for (folders = folders_of(folders); *folders;) {
        const char *rest = folders;
        size_t i;
        for (i = 0; i < 2; i++) {
            char line[64];
            size_t before = strlen(FILES[i].before), len = 0, fits;
            ssize_t got;
            const char *here = folders;
            const int file = open_in_first(&here, FILES[i].name);
            rest = here;
            if (file < 0) continue;
            got = read(file, line, sizeof line);
            close(file);
            if (got <= (ssize_t)before || memcmp(line, FILES[i].before, before) != 0) continue;
            while (before + len < (size_t)got && line[before + len] > ' ' && line[before + len] < 127) len++;
            if (len == 0 || before + len == (size_t)got) continue;
            if (text_len) {
                fits = len < text_len ? len : text_len - 1;
                memcpy(text, line + before, fits);
                text[fits] = 0;
            }
            return len;
        }
        folders = rest;
    }
    if (text_len) *text = 0;
    return 0;
}

const char *zoned_error_words(uint32_t number) {
    static const char *const WORDS[] = {
        [ZONED_OK] = "no error",
        [ZONED_LOCAL_TIME_TYPE] = "an offset or abbreviation that no local time type can have",
        [ZONED_INVALID_TZ_FILE] = "a fault in the form of a TZif file",
        [ZONED_INVALID_TZ_STRING] = "a time or offset of a TZ string is out of its limits, or extra bytes follow the string",
        [ZONED_UNEXPECTED_END] = "unexpected end of input",
        [ZONED_MISSING_TAG] = "unexpected byte in a TZ string",
        [ZONED_PARSE_INT] = "a number of a TZ string is missing or too large",
        [ZONED_TIME_ZONE] = "the lists of a TZif file make no valid zone",
        [ZONED_TRANSITION_RULE] = "a month, week, weekday or day of a TZ string is out of its limits",
        [ZONED_UNSUPPORTED_TZ_FILE] = "a TZif version other than 1, 2 and 3",
        [ZONED_UNSUPPORTED_TZ_STRING] = "a TZ string names daylight saving time but has no rule for it",
        [ZONED_UTF8] = "a TZ string that is not UTF-8",
        [ZONED_OUT_OF_MEMORY] = "out of memory",
        [ZONED_IN_GAP] = "the local time lies in a gap",
        [ZONED_IN_FOLD] = "the local time lies in a fold",
        [ZONED_INSTANT_OUT_OF_RANGE] = "the local time or its instant is out of range",
        [ZONED_UNKNOWN_KIND] = "no such kind of bytes",
        [ZONED_OTHER_SIZE] = "there is room for another count of answers",
        [ZONED_NOT_OPEN] = "no zone is open",
        [ZONED_UNKNOWN_CHOICE] = "no such choice for gaps and folds",
        [ZONED_NO_CHANGE] = "no change of the clocks",
        [ZONED_UNKNOWN_UNIT] = "no such unit of time",
        [ZONED_NO_LOCAL_TIME] = "an instant has no local time",
        [ZONED_NO_DATE_TIME] = "no such date or time of day",
        [ZONED_WIDE_ZONE] = "an offset of the zone is a day or more",
        [ZONED_OTHER_TYPE_INDEX] = "a transition of a TZif file names no local time type",
        [ZONED_OTHER_TRANSITION_TIMES] = "the transition times of a TZif file do not rise",
        [ZONED_OTHER_LEAP_SECONDS] = "the leap seconds of a TZif file cannot follow one another",
        [ZONED_OTHER_RULE] = "the footer of a TZif file disagrees with the last transition",
        [ZONED_NO_SUCH_ZONE] = "no time zone of that name",
        [ZONED_UNREADABLE_FILE] = "the file of a time zone can't be read",
        [ZONED_UNKNOWN_STEP] = "no such step of the local clock",
        [ZONED_ABOVE_LIMITS] = "a TZif file has more transitions or leap seconds than allowed",
    };
    const char *const words = number < sizeof WORDS / sizeof *WORDS ? WORDS[number] : NULL;
    return words ? words : "no number of this library";
}
