/* zoned.h: time zones for C, as they are installed: the proved calls of zoned_ffi.h, and zones by name.

     struct zoned_zone paris = {0};
     int32_t offset;
     uint32_t number = zoned_open_name("Europe/Paris", NULL, &paris);
     if (number == ZONED_OK) number = zoned_zone_offset(&paris, 1615705200, &offset);
     zoned_close(&paris);

   The calls below are C code, crates/zoned_ffi/install/names.c of the sources, that no proof covers. They read files, and take
   memory by malloc and realloc, whatever HEAP the library was installed with. Any number of threads may call them at once. */
#ifndef ZONED_H
#define ZONED_H

#include "zoned_ffi.h"

#ifdef __cplusplus
extern "C" {
#endif

/* Plain declarations begin. */

/* Opens the zone of a name, such as Europe/Paris: the TZif file of that name in the first of the folders that has one.

   `folders` is a list of paths with : between them. NULL: the list in the environment variable TZDIR, or, if that is not set or
   empty, or if the program runs with other rights than its user's, /usr/share/zoneinfo:/usr/lib/zoneinfo:/usr/share/lib/zoneinfo:/etc/zoneinfo.

   ZONED_NO_SUCH_ZONE: no folder has a regular file of that name, or the name has an empty part, "." or "..", such as
   ../../etc/passwd. So no name leads out of a folder, but links in a folder are followed: "localtime" in "/etc" is the machine's
   zone, where that file exists. A file that can't be opened, such as a link to itself, is passed over. ZONED_UNREADABLE_FILE: one was,
   and no later folder has the name; or reading fails. errno says why. Others as of zoned_open with ZONED_FILE. In each case `out` is
   as it was. */
uint32_t zoned_open_name(const char *name, const char *folders, struct zoned_zone *out);

/* Writes the version of the tz database in the first of the folders that states it, such as 2026a, as much as fits into `text`
   with a zero byte after it (nothing if text_len is 0). Returns the length of the whole text, less than 64: 0 if no folder has a
   version, in tzdata.zi or +VERSION. `folders` is as above. */
size_t zoned_tz_version(const char *folders, char *text, size_t text_len);

/* Returns what a number means, in English. The text is never freed. */
const char *zoned_error_words(uint32_t number);

/* Plain declarations end. */

#if defined(__GNUC__) || defined(__clang__)
#pragma GCC diagnostic push
#pragma GCC diagnostic ignored "-Wredundant-decls"
extern __typeof__(zoned_open_name) zoned_open_name __attribute__((warn_unused_result, nonnull(1, 3)));
#pragma GCC diagnostic pop
#endif

#ifdef __cplusplus
}
#endif
#endif
