/* Tries the calls of zoned.h that no proof covers: zones by name, the version of the database, and numbers in words. And some that are
   proved, over the installed library: what is around a local time, changes of the offset, limits, and where a file is at fault.

     try_names FOLDER      a folder that it makes, of folders of zones

   tools/try_install.py builds and runs it over the installed library. It prints what is not so, and ends with 0 if nothing is. */
#define _GNU_SOURCE
#include <zoned.h>

#include <errno.h>
#include <stdio.h>
#include <stdlib.h>
#include <string.h>
#include <sys/stat.h>
#include <unistd.h>

static int differences;

#define IS(what, wanted)                                                                                                     \
    do {                                                                                                                     \
        const long long is = (long long)(what), due = (long long)(wanted);                                                   \
        if (is != due) {                                                                                                     \
            fprintf(stderr, "try_names.c:%d: %s is %lld, not %lld\n", __LINE__, #what, is, due);                             \
            differences++;                                                                                                   \
        }                                                                                                                    \
    } while (0)

/* A TZif file of version 1: one type of that offset, and so many transitions that change nothing. */
static size_t file_of(unsigned char *to, unsigned offset, unsigned transitions) {
    size_t len = 44;
    memset(to, 0, len);
    memcpy(to, "TZif", 4);
    to[34] = (unsigned char)(transitions >> 8), to[35] = (unsigned char)transitions;
    to[39] = 1, to[43] = 4;
    for (unsigned i = 0; i < transitions; i++, len += 4) to[len] = 0, to[len + 1] = 0, to[len + 2] = (unsigned char)(i >> 8), to[len + 3] = (unsigned char)i;
    memset(to + len, 0, transitions);
    len += transitions;
    memset(to + len, 0, 10);
    to[len + 2] = (unsigned char)(offset >> 8), to[len + 3] = (unsigned char)offset;
    memcpy(to + len + 6, "ABC", 4);
    return len + 10;
}

static void put(const char *path, const void *bytes, size_t len) {
    FILE *file = fopen(path, "wb");
    if (!file || fwrite(bytes, 1, len, file) != len || fclose(file)) perror(path), exit(2);
}

static void put_zone(const char *path, unsigned offset, unsigned transitions) {
    static unsigned char bytes[200000];
    put(path, bytes, file_of(bytes, offset, transitions));
}

/* The offset of a zone, or the negative number of the error; a handle is as it was after one. */
static int offset_of(const char *name, const char *folders) {
    struct zoned_zone zone = {0};
    int32_t offset;
    const uint32_t number = zoned_open_name(name, folders, &zone);
    if (number) {
        IS(zone.zone == NULL, 1);
        return -(int)number;
    }
    IS(zoned_zone_offset(&zone, 0, &offset), ZONED_OK);
    zoned_close(&zone);
    return offset;
}

static const char *version_of(const char *text, const char *file) {
    static char version[64];
    put(file, text, strlen(text));
    IS(zoned_tz_version("three", version, sizeof version), strlen(version));
    return version;
}

static void try_versions(void) {
    char few[4] = "xyz";
    if (mkdir("three", 0777)) exit(2);
    IS(zoned_tz_version("three:none", few, 4), 0);
    IS(few[0], 0);
    IS(strcmp(version_of("2024a\n", "three/+VERSION"), "2024a"), 0);
    IS(strcmp(version_of("# version 2026z\n# more\n", "three/tzdata.zi"), "2026z"), 0);
    IS(zoned_tz_version("two:three", few, 4), 5);
    IS(strcmp(few, "202"), 0);
    IS(zoned_tz_version("three", NULL, 0), 5);
    /* A line that isn't that of a version, or is cut short, says nothing; the other file does. */
    IS(strcmp(version_of("# release 2026z\n", "three/tzdata.zi"), "2024a"), 0);
    IS(strcmp(version_of("# version 2026z", "three/tzdata.zi"), "2024a"), 0);
    IS(strcmp(version_of("# version \n", "three/tzdata.zi"), "2024a"), 0);
    IS(strcmp(version_of("", "three/+VERSION"), ""), 0);
}

static void try_words(void) {
    char text[128];
    for (uint32_t number = 0; number < 300; number++) {
        const char *words = zoned_error_words(number);
        IS(zoned_error_text(number, text, sizeof text), strlen(words));
        IS(strcmp(words, text), 0);
    }
    IS(strcmp(zoned_error_words(UINT32_MAX), "no number of this library"), 0);
    IS(strcmp(zoned_error_words(ZONED_ABOVE_LIMITS), zoned_error_words(49)) != 0, 1);
}

/* London, where British summer time became standard time on 1968-10-27, at the same offset, until 1971-10-31 (zdump -v). */
static void try_london(void) {
    struct zoned_zone zone = {0};
    zoned_change change;
    zoned_local_info info;
    char rule[32] = "";
    size_t length = 0;
    IS(zoned_open_name("Europe/London", "/usr/share/zoneinfo", &zone), ZONED_OK);
    /* 02:30 on 1971-10-31 was shown twice, and 02:30 on 1968-02-18 never. */
    IS(zoned_zone_local_change(&zone, 57724200, &change), ZONED_OK);
    IS(change.at, 57722400);
    IS(zoned_zone_local_info(&zone, 57724200, &info), ZONED_OK);
    IS(info.shown, ZONED_SEVERAL_TIMES);
    IS(info.first.from, -37242000);
    IS(info.last.from, 57722400);
    IS(zoned_zone_local_info(&zone, -59002200, &info), ZONED_OK);
    IS(info.shown, ZONED_NEVER);
    IS(info.first.until, -59004000);
    IS(info.last.until, -37242000);
    /* The offset is the same from one of these to the other. */
    IS(zoned_zone_next_change(&zone, -59004000, &change), ZONED_OK);
    IS(change.at, -37242000);
    IS(zoned_zone_next_offset_change(&zone, -59004000, &change), ZONED_OK);
    IS(change.at, 57722400);
    IS(change.before.offset, 3600);
    IS(change.after.offset, 0);
    IS(zoned_zone_previous_offset_change(&zone, 57722399, &change), ZONED_OK);
    IS(change.at, -59004000);
    IS(zoned_zone_rule_text(&zone, rule, sizeof rule, &length), ZONED_OK);
    IS(strcmp(rule, "GMT0BST,M3.5.0/1,M10.5.0"), 0);
    IS(length, strlen(rule));
    /* 02:30 on 1968-02-18 at the offset after the gap. */
    zoned_resolved resolved;
    IS(zoned_zone_instant(&zone, ZONED_GAP_SHIFT_BACKWARD, ZONED_FOLD_REFUSE, -59002200, &resolved), ZONED_OK);
    IS(resolved.number, ZONED_OK);
    IS(resolved.instant, -59005800);
    /* 1972-07-01 00:00:00 UTC lies in British summer time, an hour ahead of standard time. */
    zoned_saving saving;
    IS(zoned_zone_standard_offset(&zone, 78796800, &saving), ZONED_OK);
    IS(saving.standard_offset, 0);
    IS(saving.amount, 3600);
    zoned_close(&zone);
}

/* A file of five transitions within limits and above them, and where a file is at fault: its fifth byte is the version. */
static void try_limits(void) {
    unsigned char file[200];
    const size_t len = file_of(file, 3600, 5);
    struct zoned_zone zone = {0};
    IS(zoned_open_limited(ZONED_FILE, file, len, 4, 0, &zone), ZONED_ABOVE_LIMITS);
    IS(zone.zone == NULL, 1);
    IS(zoned_open_limited(ZONED_FILE, file, len, 5, 0, &zone), ZONED_OK);
    zoned_close(&zone);
    IS(zoned_fault_position(ZONED_FILE, file, len) == SIZE_MAX, 1);
    IS(zoned_fault_position(ZONED_FILE, file, len - 1), len - 1);
    file[4] = '4';
    IS(zoned_fault_position(ZONED_FILE, file, len), 4);
}

int main(int count, char **words) {
    char long_name[5000];
    if (count != 2 || mkdir(words[1], 0777) || chdir(words[1])) return 2;
    if (mkdir("one", 0777) || mkdir("one/Here", 0777) || mkdir("two", 0777) || mkdir("two/Here", 0777)) return 2;
    put_zone("one/Here/Zone", 3600, 0);
    put_zone("two/Here/Zone", 7200, 0);
    put_zone("two/Other", 1800, 20000);
    put_zone("outside", 900, 0);
    put("one/Bad", "no zone", 7);
    put("one/Empty", "", 0);
    if (symlink("Here/Zone", "one/Link") || symlink("nowhere", "one/Broken") || symlink("Loop", "one/Loop") || symlink("/dev/zero", "one/Zeros") || mkfifo("one/Pipe", 0666)) return 2;

    /* The first folder that has the name. */
    IS(offset_of("Here/Zone", "one"), 3600);
    IS(offset_of("Here/Zone", "one:two"), 3600);
    IS(offset_of("Here/Zone", "two:one"), 7200);
    IS(offset_of("Here/Zone", ":none:outside::two:"), 7200);
    IS(offset_of("Other", "one:two"), 1800);
    IS(offset_of("Link", "one"), 3600);
    IS(offset_of("Here/Zone", "three"), -ZONED_NO_SUCH_ZONE);
    IS(offset_of("Here/Zone", ""), -ZONED_NO_SUCH_ZONE);

    /* No name leads out of a folder, and what is no regular file is no zone. */
    static const char *const NONE[] = {"", "/", "/etc/passwd", "..", ".", "../outside", "Here/../Here/Zone", "Here/..", "Here/../../outside", "./Here/Zone",
                                       "Here/./Zone", "Here//Zone", "//Here/Zone", "Here/", "Here/Zone/", "Here", "Pipe", "Zeros", "Here/Zone/Part", "Broken", "here/zone"};
    for (size_t i = 0; i < sizeof NONE / sizeof *NONE; i++) {
        if (offset_of(NONE[i], "one") == -ZONED_NO_SUCH_ZONE && offset_of(NONE[i], "two:one") == -ZONED_NO_SUCH_ZONE) continue;
        fprintf(stderr, "not so: no zone has the name %s\n", NONE[i]);
        differences++;
    }
    put_zone("one/...", 60, 0);
    put_zone("one/.hidden", 120, 0);
    put_zone("one/..more", 180, 0);
    IS(offset_of("...", "one"), 60);
    IS(offset_of(".hidden", "one"), 120);
    IS(offset_of("..more", "one"), 180);
    memset(long_name, 'a', sizeof long_name);
    for (size_t len = 4085; len < 4100; len++) {
        long_name[len] = 0;
        IS(offset_of(long_name, "one"), -ZONED_NO_SUCH_ZONE);
        long_name[len] = 'a';
    }
    long_name[sizeof long_name - 1] = 0;
    IS(offset_of("Here/Zone", long_name), -ZONED_NO_SUCH_ZONE);

    /* Files that are there. */
    IS(offset_of("Bad", "one:two"), -ZONED_INVALID_TZ_FILE);
    IS(offset_of("Empty", "one"), -ZONED_UNEXPECTED_END);
    errno = 0;
    IS(offset_of("Loop", "one"), -ZONED_UNREADABLE_FILE);
    IS(errno, ELOOP);
    if (geteuid() != 0) {
        chmod("one/Here/Zone", 0);
        IS(offset_of("Here/Zone", "one"), -ZONED_UNREADABLE_FILE);
        IS(errno, EACCES);
        IS(offset_of("Here/Zone", "one:two"), 7200);
        chmod("one/Here/Zone", 0600);
    }

    /* A handle that has a zone open keeps it if there is no such zone, and else has the new one. */
    struct zoned_zone zone = {0};
    int32_t offset;
    IS(zoned_open_name("Here/Zone", "one", &zone), ZONED_OK);
    IS(zoned_open_name("Here/Nowhere", "one", &zone), ZONED_NO_SUCH_ZONE);
    IS(zoned_zone_offset(&zone, 0, &offset), ZONED_OK);
    IS(offset, 3600);
    IS(zoned_open_name("Here/Zone", "two", &zone), ZONED_OK);
    IS(zoned_zone_offset(&zone, 0, &offset), ZONED_OK);
    IS(offset, 7200);
    zoned_close(&zone);

    /* The environment's folders, and the usual ones. */
    setenv("TZDIR", "none:two", 1);
    IS(offset_of("Here/Zone", NULL), 7200);
    IS(offset_of("Here/Zone", "one"), 3600);
    IS(offset_of("Here/Zone", ""), -ZONED_NO_SUCH_ZONE);
    setenv("TZDIR", "", 1);
    IS(offset_of("Here/Zone", NULL), -ZONED_NO_SUCH_ZONE);
    if (access("/usr/share/zoneinfo/Asia/Tokyo", R_OK) == 0) IS(offset_of("Asia/Tokyo", NULL), 32400);
    unsetenv("TZDIR");
    if (access("/usr/share/zoneinfo/Asia/Tokyo", R_OK) == 0) IS(offset_of("Asia/Tokyo", NULL), 32400);

    try_versions();
    try_words();
    if (access("/usr/share/zoneinfo/Europe/London", R_OK) == 0) try_london();
    try_limits();
    return differences != 0;
}
