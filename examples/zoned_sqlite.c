/* Time zones for SQLite: an example of an extension over zoned.h, which keeps a zone open from row to row.

     to_local(instant, zone)               the local time of a Unix second: to_local(1615705200, 'America/New_York') is
                                           2021-03-14 03:00:00
     to_utc(local, zone[, gap[, fold]])    the Unix second of a local time, such as 2021-03-14 03:00:00 or 2021-03-14. The gap is
                                           'shift_forward' (the default), 'shift_backward', 'end' or 'refuse', the fold 'earliest' (the default),
                                           'latest' or 'refuse'
     tz_abbrev(instant, zone)              the abbreviation in force, such as EDT

   Of NULL each is NULL. After tools/install.sh:

     gcc -O2 -shared -fPIC -o zoned_sqlite.so examples/zoned_sqlite.c $(pkg-config --cflags --libs zoned)
     sqlite3 :memory: ".load ./zoned_sqlite" "select to_local(1615705200, 'America/New_York')" */
#include <sqlite3ext.h>
SQLITE_EXTENSION_INIT1

#include <stdio.h>
#include <string.h>
#include <zoned.h>

/* The zone that a function was asked for last. A connection runs one function at a time. */
typedef struct {
    char name[256];
    zoned_zone zone;
} kept_zone;

static void close_kept(void *kept) {
    zoned_close(&((kept_zone *)kept)->zone);
    sqlite3_free(kept);
}

static void fail(sqlite3_context *context, uint32_t number) { sqlite3_result_error(context, zoned_error_words(number), -1); }

/* The zone of that name, opened if it isn't the last one. NULL: the error is the function's result. */
static const zoned_zone *zone_named(sqlite3_context *context, sqlite3_value *value) {
    kept_zone *kept = sqlite3_user_data(context);
    const char *name = (const char *)sqlite3_value_text(value);
    if (!name || strlen(name) >= sizeof kept->name) {
        fail(context, ZONED_NO_SUCH_ZONE);
        return NULL;
    }
    if (kept->zone.zone && strcmp(kept->name, name) == 0) return &kept->zone;
    uint32_t number = zoned_open_name(name, NULL, &kept->zone);
    if (number) {
        fail(context, number);
        return NULL;
    }
    strcpy(kept->name, name);
    return &kept->zone;
}

static int any_is_null(int count, sqlite3_value **values) {
    for (int i = 0; i < count; i++)
        if (sqlite3_value_type(values[i]) == SQLITE_NULL) return 1;
    return 0;
}

static void to_local(sqlite3_context *context, int count, sqlite3_value **values) {
    if (any_is_null(count, values)) return;
    const zoned_zone *zone = zone_named(context, values[1]);
    if (!zone) return;
    zoned_fields at;
    uint32_t number = zoned_zone_fields(zone, sqlite3_value_int64(values[0]), &at);
    if (number) {
        fail(context, number);
        return;
    }
    char text[40];
    snprintf(text, sizeof text, "%04d-%02u-%02u %02u:%02u:%02u", at.year, at.month, at.day, at.hour, at.minute, at.second);
    sqlite3_result_text(context, text, -1, SQLITE_TRANSIENT);
}

static void tz_abbrev(sqlite3_context *context, int count, sqlite3_value **values) {
    if (any_is_null(count, values)) return;
    const zoned_zone *zone = zone_named(context, values[1]);
    if (!zone) return;
    zoned_local_type type;
    uint32_t number = zoned_zone_type(zone, sqlite3_value_int64(values[0]), &type);
    if (!number && type.offset == ZONED_NO_OFFSET) number = ZONED_NO_LOCAL_TIME;
    if (number) {
        fail(context, number);
        return;
    }
    sqlite3_result_text(context, type.abbreviation, -1, SQLITE_TRANSIENT);
}

/* A date, or a date and a time of day with a space or a T between them. */
static uint32_t local_of(const char *text, int64_t *local) {
    zoned_fields at = {0};
    int read = 0;
    if (sscanf(text, "%d-%2u-%2u%n", &at.year, &at.month, &at.day, &read) < 3) return ZONED_NO_DATE_TIME;
    if (text[read] == ' ' || text[read] == 'T') {
        text += read + 1;
        read = 0;
        if (sscanf(text, "%2u:%2u:%2u%n", &at.hour, &at.minute, &at.second, &read) < 3) return ZONED_NO_DATE_TIME;
    }
    return text[read] ? ZONED_NO_DATE_TIME : zoned_local_of(&at, local);
}

/* The place of a word in a list that NULL ends. */
static uint32_t index_of(const char *const *words, sqlite3_value *value) {
    uint32_t index = 0;
    const char *word = (const char *)sqlite3_value_text(value);
    while (words[index] && strcmp(words[index], word)) index++;
    return index;
}

static void to_utc(sqlite3_context *context, int count, sqlite3_value **values) {
    static const char *const gaps[] = {"refuse", "shift_forward", "end", "shift_backward", NULL};
    static const char *const folds[] = {"refuse", "earliest", "latest", NULL};
    if (any_is_null(count, values)) return;
    uint32_t gap = count > 2 ? index_of(gaps, values[2]) : ZONED_GAP_SHIFT_FORWARD;
    uint32_t fold = count > 3 ? index_of(folds, values[3]) : ZONED_FOLD_EARLIEST;
    const zoned_zone *zone = zone_named(context, values[1]);
    if (!zone) return;
    int64_t local;
    zoned_resolved resolved;
    uint32_t number = local_of((const char *)sqlite3_value_text(values[0]), &local);
    if (!number) number = zoned_zone_instant(zone, gap, fold, local, &resolved);
    if (!number) number = resolved.number;
    if (number)
        fail(context, number);
    else
        sqlite3_result_int64(context, resolved.instant);
}

/* A tz database may change, so the functions are not SQLITE_DETERMINISTIC: no index may keep their answers. */
static int add(sqlite3 *database, const char *name, int count, void (*function)(sqlite3_context *, int, sqlite3_value **)) {
    kept_zone *kept = sqlite3_malloc(sizeof *kept);
    if (!kept) return SQLITE_NOMEM;
    memset(kept, 0, sizeof *kept);
    return sqlite3_create_function_v2(database, name, count, SQLITE_UTF8 | SQLITE_INNOCUOUS, kept, function, NULL, NULL, close_kept);
}

int sqlite3_zonedsqlite_init(sqlite3 *database, char **error, const sqlite3_api_routines *api) {
    (void)error;
    SQLITE_EXTENSION_INIT2(api);
    int status = add(database, "to_local", 2, to_local);
    if (!status) status = add(database, "tz_abbrev", 2, tz_abbrev);
    for (int count = 2; count <= 4 && !status; count++) status = add(database, "to_utc", count, to_utc);
    return status;
}
