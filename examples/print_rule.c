/* Reads a rule into lent tables and prints it. Build it in the repository's root, after rust/archive:

     gcc -Iinclude examples/print_rule.c target/staticlib/libpeldarox.a -o print_rule */

#include <stdio.h>
#include <string.h>

#include "peldarox.h"

/* Rows of each table: enough for a short rule. */
#define ROWS 64

static uint32_t items[ROWS * PELDAROX_ITEM_WORDS];
static uint32_t statements[ROWS * PELDAROX_STATEMENT_WORDS];
static uint32_t operands[ROWS * PELDAROX_OPERAND_WORDS];
static uint32_t attributes[ROWS * PELDAROX_ATTRIBUTE_WORDS];
static uint32_t work[3 * ROWS + ROWS + 1];
static uint8_t output[4096];

#define WORDS(table) table, sizeof table / sizeof table[0]

static const char rule[] = "%clock:i16=var ; minutes\n"
                           "%back:i16=add %clock,-1:i016 cand %back -1:i16";

int main(void)
{
    const uint8_t *text = (const uint8_t *)rule;
    size_t bytes = strlen(rule);
    uint64_t report[6];

    peldarox_read_replacements(text, bytes, WORDS(items), WORDS(statements), WORDS(operands), WORDS(attributes), report);
    if (report[0] == 0)
        peldarox_print(text, bytes, WORDS(items), WORDS(statements), WORDS(operands), WORDS(attributes), report[2],
                       report[3], report[4], report[5], WORDS(work), WORDS(output), report);
    if (report[0] != 0) {
        fprintf(stderr, "refused %llu at %llu\n", (unsigned long long)report[0], (unsigned long long)report[1]);
        return 1;
    }
    fwrite(output, 1, report[1], stdout);
    return 0;
}
