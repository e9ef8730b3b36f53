/* To be linked with `--wrap=flcol_compress`: that takes five seconds, whatever signals come, as with a large array. */
#include <time.h>

#include "flcol.h"

extern int32_t __real_flcol_compress(flcol_array *array, flcol_array *out);
extern int32_t __wrap_flcol_compress(flcol_array *array, flcol_array *out);

int32_t __wrap_flcol_compress(flcol_array *array, flcol_array *out) {
    struct timespec left = {.tv_sec = 5};
    while (nanosleep(&left, &left) != 0) continue;
    return __real_flcol_compress(array, out);
}
