/* zoned_close of the installed libraries takes NULL too. tools/install.sh gives the proved call another name, which they keep to
   themselves. */
#include "../include/zoned_ffi.h"

void zoned_close_zone(struct zoned_zone *zone);

void zoned_close(struct zoned_zone *zone) {
    if (zone) zoned_close_zone(zone);
}
