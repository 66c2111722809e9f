/*
 * Notes which edges of the library's code were gone through, and writes at the end those that were not, as addresses in the
 * library. The compiler's coverage code calls the two functions below when the library is loaded.
 */
#include <stdbool.h>
#include <stdint.h>
#include <stdio.h>
#include <stdlib.h>

static bool *first, *last;
static const uintptr_t *table;
extern const char __ehdr_start;

void __sanitizer_cov_bool_flag_init(bool *from, bool *to)
{
    first = from;
    last = to;
}

void __sanitizer_cov_pcs_init(const uintptr_t *from, const uintptr_t *to)
{
    table = from;
    (void)to;
}

__attribute__((destructor)) static void tell(void)
{
    const char *name = getenv("EDGES_OUT");
    FILE *out = name ? fopen(name, "w") : NULL;
    if (!out)
        return;
    for (const bool *flag = first; flag < last; flag++)
        fprintf(out, "%d %016jx\n", *flag, (uintmax_t)(table[2 * (flag - first)] - (uintptr_t)&__ehdr_start));
    fclose(out);
}
