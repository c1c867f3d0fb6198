/* The tables of the plain C, filled once: fields, powers, Gaussian coefficients by formula (4), partitions. */
#include "plain.h"

const unsigned plain_sizes[PLAIN_SIZES] = {2, 3, 4, 5, 7, PLAIN_FIELD};
plain_field plain_fields[PLAIN_FIELD + 1];
uint64_t plain_powers[PLAIN_FIELD + 1][PLAIN_DOTS + 1];
uint64_t plain_gaussian[PLAIN_FIELD + 1][PLAIN_LENGTH + 1][PLAIN_LENGTH + 1];
uint32_t plain_partitions[PLAIN_LENGTH + 1][PLAIN_LENGTH + 1][PLAIN_DOTS + 1];
uint64_t plain_tails[PLAIN_FIELD + 1][PLAIN_LENGTH + 1][PLAIN_LENGTH + 1][PLAIN_DOTS + 1];

/* Powers of t in four and eight, from t^0: t^2 = t + 1, and t^3 = t + 1. Each entry but 0 is one of them. */
static const uint8_t powers_in_four[] = {1, 2, 3}, powers_in_eight[] = {1, 2, 4, 3, 6, 7, 5};

static unsigned product_by_powers(unsigned q, const uint8_t *powers, unsigned a, unsigned b)
{
    unsigned exponent = 0;
    if (a == 0 || b == 0)
        return 0;
    while (powers[exponent] != a)
        exponent++;
    for (unsigned other = 0; powers[other] != b; other++)
        exponent++;
    return powers[exponent % (q - 1)];
}

static unsigned product(unsigned q, unsigned a, unsigned b)
{
    switch (q) {
    case 4: return product_by_powers(q, powers_in_four, a, b);
    case 8: return product_by_powers(q, powers_in_eight, a, b);
    default: return a * b % q;
    }
}

/* Bit by bit in four and eight, where a difference is a sum. */
static unsigned difference(unsigned q, unsigned a, unsigned b)
{
    return q == 4 || q == 8 ? a ^ b : (a + q - b) % q;
}

static void fill_field(unsigned q)
{
    plain_field *field = &plain_fields[q];
    for (unsigned a = 0; a < q; a++)
        for (unsigned b = 0; b < q; b++) {
            field->product[a][b] = (uint8_t)product(q, a, b);
            if (product(q, a, b) == 1)
                field->inverse[a] = (uint8_t)b;
            for (unsigned c = 0; c < q; c++)
                field->less_product[a][b][c] = (uint8_t)difference(q, c, product(q, a, b));
        }
}

static void fill_powers(unsigned q)
{
    uint64_t power = 1;
    for (unsigned exponent = 0; exponent <= PLAIN_DOTS; exponent++) {
        plain_powers[q][exponent] = power;
        power = power > UINT64_MAX / q ? 0 : power * q;
    }
}

/* q^k [n-1, k] + [n-1, k-1], or 0 where that doesn't fit. */
static uint64_t gaussian_step(unsigned q, unsigned n, unsigned k)
{
    uint64_t power = plain_powers[q][k], right = plain_gaussian[q][n - 1][k], left = plain_gaussian[q][n - 1][k - 1];
    uint64_t product, sum;
    if (left == 0 || (k < n && (power == 0 || right == 0)))
        return 0;
    return __builtin_mul_overflow(power, right, &product) || __builtin_add_overflow(product, left, &sum) ? 0 : sum;
}

static void fill_gaussian(unsigned q)
{
    for (unsigned n = 0; n <= PLAIN_LENGTH; n++) {
        plain_gaussian[q][n][0] = 1;
        for (unsigned k = 1; k <= n; k++)
            plain_gaussian[q][n][k] = gaussian_step(q, n, k);
    }
}

/* Lemma 1: the first column is full, or there is one row less. */
static void fill_partitions(void)
{
    for (unsigned k = 0; k <= PLAIN_LENGTH; k++)
        for (unsigned eta = 0; k + eta <= PLAIN_LENGTH; eta++)
            for (unsigned m = 0; m <= k * eta; m++) {
                uint32_t count = m == 0;
                if (k > 0 && eta > 0 && m > 0)
                    count = plain_partitions[k - 1][eta][m] + (m < k ? 0 : plain_partitions[k][eta - 1][m - k]);
                plain_partitions[k][eta][m] = count;
            }
}

static void fill_tails(unsigned q)
{
    for (unsigned k = 0; k <= PLAIN_LENGTH; k++)
        for (unsigned eta = 0; k + eta <= PLAIN_LENGTH; eta++) {
            uint64_t more = 0;
            for (unsigned above = k * eta + 1; above-- > 0 && plain_gaussian[q][k + eta][k] != 0;) {
                plain_tails[q][k][eta][above] = more;
                more += plain_partitions[k][eta][above] * plain_powers[q][above];
            }
        }
}

void plain_init(void)
{
    fill_partitions();
    for (unsigned place = 0; place < PLAIN_SIZES; place++) {
        fill_field(plain_sizes[place]);
        fill_powers(plain_sizes[place]);
        fill_gaussian(plain_sizes[place]);
        fill_tails(plain_sizes[place]);
    }
}
