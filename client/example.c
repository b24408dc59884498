/* Prints the listing of the job sheet on standard input, and folds the row of each riser's last carrier.
 *
 *   gcc -O2 -I client client/example.c target/staticlib/libsaucewagon_c.a -o target/example
 *   target/example < examples/A.sheet
 */
#include <inttypes.h>
#include <stdio.h>
#include "saucewagon.h"

/* One byte more than the longest sheet, so that a longer one is refused and not cut. */
static uint8_t sheet[SAUCEWAGON_LONGEST + 1];
static uint8_t bytes[24576];
static uint64_t sizes[2048];

/* Prints some carriers, a space after each. */
static void print_carriers(const uint8_t *carriers, size_t count)
{
    for (size_t i = 0; i < count; i++)
        printf("%u ", carriers[i]);
}

int main(void)
{
    size_t length = fread(sheet, 1, sizeof sheet, stdin);
    uint64_t place, listed, opened, total, size;
    uint64_t number = saucewagon_list(sheet, length, 1000000, bytes, sizeof bytes, sizes, 2048, &place, &listed, &opened, &total);
    if (number != SAUCEWAGON_ACCEPTED) {
        printf("refused %" PRIu64 " at %" PRIu64 "\n", number, place);
        return 0;
    }
    /* The sheet was accepted, so its counts of carriers and risers, and its lists, can be relied on. */
    size_t carriers = sheet[0], risers = sheet[1];
    printf("plans %" PRIu64 " opened %" PRIu64 " total %" PRIu64 "\n", listed, opened, total);
    for (size_t line = 0; line < listed; line++) {
        print_carriers(bytes + line * risers, risers);
        printf("%" PRIu64 "\n", sizes[line]);
    }

    uint8_t row[SAUCEWAGON_RISERS], first[SAUCEWAGON_RISERS], member[SAUCEWAGON_CARRIERS];
    const uint8_t *list = sheet + 2;
    for (size_t riser = 0; riser < risers; riser++) {
        row[riser] = list[list[0]];
        list += 1 + list[0];
    }
    saucewagon_fold(sheet, length, row, risers, first, risers, member, carriers, &place, &size);
    print_carriers(row, risers);
    printf("folds to ");
    print_carriers(first, risers);
    printf("by ");
    print_carriers(member, carriers);
    printf("and is one of %" PRIu64 "\n", size);
    return 0;
}
