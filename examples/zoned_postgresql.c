/* Time zones for PostgreSQL: an example of an extension over zoned.h, which keeps a zone open from row to row.

   After tools/install.sh, with the headers of the server:

     gcc -O2 -shared -fPIC -I"$(pg_config --includedir-server)" -o zoned_postgresql.so examples/zoned_postgresql.c $(pkg-config --cflags --libs zoned)

     create function zoned_to_local(timestamptz, text) returns timestamp as '/path/zoned_postgresql' language c strict stable parallel safe;
     create function zoned_to_utc(local timestamp, zone text, gap text default 'shift_forward', fold text default 'earliest')
       returns timestamptz as '/path/zoned_postgresql' language c strict stable parallel safe;
     select zoned_to_local('2021-03-14 07:00Z', 'America/New_York');

   The gap is 'shift_forward', 'shift_backward', 'end' or 'refuse', the fold 'earliest', 'latest' or 'refuse'. */
#include "postgres.h"

#include "fmgr.h"
#include "utils/builtins.h"
#include "utils/memutils.h"
#include "utils/timestamp.h"

#include <string.h>
#include <zoned.h>

PG_MODULE_MAGIC;

/* PostgreSQL counts microseconds from 2000-01-01. */
#define PER_SECOND 1000000
static const int64 SINCE_1970 = (int64)(POSTGRES_EPOCH_JDATE - UNIX_EPOCH_JDATE) * USECS_PER_DAY;

static void check(uint32 number) {
    if (number != ZONED_OK)
        ereport(ERROR, (errcode(ERRCODE_INVALID_DATETIME_FORMAT), errmsg("%s", zoned_error_words(number))));
}

/* The zone that a call in a query was asked for last. It is closed with the query. */
typedef struct {
    char name[256];
    zoned_zone zone;
} kept_zone;

static void close_kept(void *kept) { zoned_close(&((kept_zone *)kept)->zone); }

static kept_zone *kept_of(FmgrInfo *call) {
    if (!call->fn_extra) {
        kept_zone *kept = MemoryContextAllocZero(call->fn_mcxt, sizeof *kept);
        MemoryContextCallback *at_end = MemoryContextAllocZero(call->fn_mcxt, sizeof *at_end);
        at_end->func = close_kept;
        at_end->arg = kept;
        MemoryContextRegisterResetCallback(call->fn_mcxt, at_end);
        call->fn_extra = kept;
    }
    return call->fn_extra;
}

static const zoned_zone *zone_named(FmgrInfo *call, text *given) {
    kept_zone *kept = kept_of(call);
    char *name = text_to_cstring(given);
    if (!kept->zone.zone || strcmp(kept->name, name) != 0) {
        if (strlen(name) >= sizeof kept->name) check(ZONED_NO_SUCH_ZONE);
        check(zoned_open_name(name, NULL, &kept->zone));
        strcpy(kept->name, name);
    }
    pfree(name);
    return &kept->zone;
}

/* The place of a word in a list that NULL ends. */
static uint32 index_of(const char *const *words, text *given) {
    char *word = text_to_cstring(given);
    uint32 index = 0;
    while (words[index] && strcmp(words[index], word) != 0) index++;
    pfree(word);
    return index;
}

PG_FUNCTION_INFO_V1(zoned_to_local);

Datum zoned_to_local(PG_FUNCTION_ARGS) {
    TimestampTz instant = PG_GETARG_TIMESTAMPTZ(0);
    if (TIMESTAMP_NOT_FINITE(instant)) PG_RETURN_TIMESTAMP(instant);
    int64 since = instant + SINCE_1970, local;
    size_t row;
    check(zoned_column_locals(zone_named(fcinfo->flinfo, PG_GETARG_TEXT_PP(1)), PER_SECOND, &since, 1, &local, 1, &row));
    PG_RETURN_TIMESTAMP(local - SINCE_1970);
}

PG_FUNCTION_INFO_V1(zoned_to_utc);

Datum zoned_to_utc(PG_FUNCTION_ARGS) {
    static const char *const gaps[] = {"refuse", "shift_forward", "end", "shift_backward", NULL};
    static const char *const folds[] = {"refuse", "earliest", "latest", NULL};
    Timestamp local = PG_GETARG_TIMESTAMP(0);
    if (TIMESTAMP_NOT_FINITE(local)) PG_RETURN_TIMESTAMPTZ(local);
    const zoned_zone *zone = zone_named(fcinfo->flinfo, PG_GETARG_TEXT_PP(1));
    uint32 gap = index_of(gaps, PG_GETARG_TEXT_PP(2)), fold = index_of(folds, PG_GETARG_TEXT_PP(3));
    int64 since = local + SINCE_1970, instant;
    size_t row;
    check(zoned_column_instants(zone, gap, fold, PER_SECOND, &since, 1, &instant, 1, &row));
    PG_RETURN_TIMESTAMPTZ(instant - SINCE_1970);
}
