/* Prints the tables of the plain C as constants in C, for a controller that has them in flash (plain.h, PLAIN_CONST). */
#include "plain.h"

#include <inttypes.h>
#include <stdio.h>

static void print_bytes(const char *name, const uint8_t *bytes, size_t length)
{
    printf(" .%s = {", name);
    for (size_t place = 0; place < length; place++)
        printf("%u,", bytes[place]);
    printf("},");
}

/* Initialisers leave the braces of inner tables out. */
static void print_fields(void)
{
    printf("const plain_field plain_fields[PLAIN_FIELD + 1] = {\n");
    for (unsigned q = 0; q <= PLAIN_FIELD; q++) {
        printf("{");
        print_bytes("product", &plain_fields[q].product[0][0], sizeof plain_fields[q].product);
        print_bytes("less_product", &plain_fields[q].less_product[0][0][0], sizeof plain_fields[q].less_product);
        print_bytes("inverse", plain_fields[q].inverse, sizeof plain_fields[q].inverse);
        printf("},\n");
    }
    printf("};\n");
}

static void print_numbers(const char *type, const uint64_t *numbers, size_t length)
{
    printf("const uint64_t %s = {\n", type);
    for (size_t place = 0; place < length; place++)
        printf("UINT64_C(%" PRIu64 "),%s", numbers[place], place % 8 == 7 ? "\n" : " ");
    printf("};\n");
}

/* The numbers for one k and eta, m from 0 to k * eta, have a name of their own. */
static void print_partitions(void)
{
    for (unsigned k = 0; k <= PLAIN_LENGTH; k++)
        for (unsigned eta = 0; k + eta <= PLAIN_LENGTH; eta++) {
            printf("static const uint32_t p_%u_%u[] = {", k, eta);
            for (unsigned m = 0; m <= k * eta; m++)
                printf("%" PRIu32 ",", plain_partitions[k][eta][m]);
            printf("};\n");
        }
    printf("const uint32_t *const plain_partitions[PLAIN_LENGTH + 1][PLAIN_LENGTH + 1] = {\n");
    for (unsigned k = 0; k <= PLAIN_LENGTH; k++)
        for (unsigned eta = 0; k + eta <= PLAIN_LENGTH; eta++)
            printf("[%u][%u] = p_%u_%u,\n", k, eta, k, eta);
    printf("};\n");
}

/* Only settings with a count have tails. */
static bool has_tails(unsigned q, unsigned k, unsigned eta)
{
    return k + eta <= PLAIN_LENGTH && plain_gaussian[q][k + eta][k] != 0;
}

static void print_tails(void)
{
    for (unsigned place = 0; place < PLAIN_SIZES; place++)
        for (unsigned k = 0, q = plain_sizes[place]; k <= PLAIN_LENGTH; k++)
            for (unsigned eta = 0; has_tails(q, k, eta); eta++) {
                printf("static const uint64_t t_%u_%u_%u[] = {", q, k, eta);
                for (unsigned m = 0; m <= k * eta; m++)
                    printf("UINT64_C(%" PRIu64 "),", plain_tails[q][k][eta][m]);
                printf("};\n");
            }
    printf("const uint64_t *const plain_tails[PLAIN_FIELD + 1][PLAIN_LENGTH + 1][PLAIN_LENGTH + 1] = {\n");
    for (unsigned place = 0; place < PLAIN_SIZES; place++)
        for (unsigned k = 0, q = plain_sizes[place]; k <= PLAIN_LENGTH; k++)
            for (unsigned eta = 0; has_tails(q, k, eta); eta++)
                printf("[%u][%u][%u] = t_%u_%u_%u,\n", q, k, eta, q, k, eta);
    printf("};\n");
}

int main(void)
{
    plain_init();
    printf("#include \"plain.h\"\n");
    print_fields();
    print_numbers("plain_powers[PLAIN_FIELD + 1][PLAIN_DOTS + 1]", &plain_powers[0][0], sizeof plain_powers / 8);
    print_numbers("plain_gaussian[PLAIN_FIELD + 1][PLAIN_LENGTH + 1][PLAIN_LENGTH + 1]", &plain_gaussian[0][0][0],
                  sizeof plain_gaussian / 8);
    print_partitions();
    print_tails();
    return 0;
}
