/*
 * Tables of the second implementation: field arithmetic, powers, and counts by formula (1) on big numbers; and the
 * calls that only read them. Of four and eight the sums and products are those of polynomials, and a product is divided
 * by hand, coefficient by coefficient; all else reads the tables and knows no kinds of fields.
 */
#include "second_parts.h"

#include <assert.h>

const uint64_t second_field_sizes[FIELD_COUNT] = {2, 3, 4, 5, 7, 8};

second_field second_fields[FIELD_LIMIT + 1];
uint64_t second_powers[FIELD_LIMIT + 1][SIZE_LIMIT + 1];
uint64_t second_gaussian[FIELD_LIMIT + 1][MAX_LENGTH + 1][MAX_LENGTH + 1];

/* ---- Fields ---- */

/* The bits of an entry of four or eight, and the powers of t that a product of two such entries has. */
enum { ENTRY_BITS = 3, PRODUCT_POWERS = 2 * ENTRY_BITS - 1 };

/* What products of polynomials are divided by: coefficients, the constant first, and the degree, 0 at a prime q. */
typedef struct {
    unsigned degree, coefficients[ENTRY_BITS + 1];
} polynomial;

static polynomial divisor_of(unsigned q)
{
    switch (q) {
    case 4: return (polynomial){2, {1, 1, 1}};    /* t^2 + t + 1 */
    case 8: return (polynomial){3, {1, 1, 0, 1}}; /* t^3 + t + 1 */
    default: return (polynomial){0, {0}};
    }
}

/* The coefficient of a power of t in an entry of four or eight. */
static unsigned coefficient(unsigned entry, unsigned power)
{
    return entry >> power & 1;
}

/* The remainder of a long division, coefficient by coefficient from the highest; all of them count modulo 2. */
static unsigned remainder_of(unsigned powers[PRODUCT_POWERS], const polynomial *divisor)
{
    unsigned entry = 0;
    for (unsigned power = PRODUCT_POWERS; power-- > divisor->degree;) {
        unsigned quotient = powers[power] % 2;
        for (unsigned place = 0; place <= divisor->degree; place++)
            powers[power - divisor->degree + place] += quotient * divisor->coefficients[place];
    }
    for (unsigned power = 0; power < divisor->degree; power++)
        entry += powers[power] % 2 << power;
    return entry;
}

/* Sum and product define a field; the differences and inverses follow from them. */
static unsigned field_sum(unsigned q, unsigned left, unsigned right)
{
    unsigned sum = 0;
    if (divisor_of(q).degree == 0)
        return (left + right) % q;
    for (unsigned power = 0; power < ENTRY_BITS; power++)
        sum += (coefficient(left, power) + coefficient(right, power)) % 2 << power;
    return sum;
}

static unsigned field_product(unsigned q, unsigned left, unsigned right)
{
    polynomial divisor = divisor_of(q);
    unsigned powers[PRODUCT_POWERS] = {0};
    if (divisor.degree == 0)
        return left * right % q;
    for (unsigned one = 0; one < ENTRY_BITS; one++)
        for (unsigned other = 0; other < ENTRY_BITS; other++)
            powers[one + other] += coefficient(left, one) * coefficient(right, other);
    return remainder_of(powers, &divisor);
}

static void fill_pair(unsigned q, unsigned left, unsigned right)
{
    second_field *field = &second_fields[q];
    unsigned sum = field_sum(q, left, right);
    unsigned product = field_product(q, left, right);
    field->sum[left][right] = (uint8_t)sum;
    field->product[left][right] = (uint8_t)product;
    field->difference[sum][right] = (uint8_t)left;
    if (product == 1)
        field->inverse[left] = (uint8_t)right;
}

static void fill_field(unsigned q)
{
    for (unsigned code = 0; code < q * q; code++)
        fill_pair(q, code / q, code % q);
}

static void fill_powers(unsigned q)
{
    wide power = 1;
    for (unsigned exponent = 0; exponent <= SIZE_LIMIT && power <= UINT64_MAX; exponent++) {
        second_powers[q][exponent] = (uint64_t)power;
        power *= q;
    }
}

uint8_t second_field_add(uint64_t q, uint8_t left, uint8_t right)
{
    return second_fields[q].sum[left][right];
}

uint8_t second_field_multiply(uint64_t q, uint8_t left, uint8_t right)
{
    return second_fields[q].product[left][right];
}

/* ---- Big numbers, least limb first; 512 bits hold every product of formula (1) ---- */

enum { LIMBS = 16 };

typedef struct {
    uint32_t limbs[LIMBS];
} big;

static void big_multiply(big *number, uint64_t factor)
{
    wide carry = 0;
    for (unsigned place = 0; place < LIMBS; place++) {
        carry += (wide)number->limbs[place] * factor;
        number->limbs[place] = (uint32_t)carry;
        carry >>= 32;
    }
    assert(carry == 0);
}

static void big_divide_exactly(big *number, uint64_t divisor)
{
    wide rest = 0;
    for (unsigned place = LIMBS; place-- > 0;) {
        rest = rest << 32 | number->limbs[place];
        number->limbs[place] = (uint32_t)(rest / divisor);
        rest %= divisor;
    }
    assert(rest == 0);
}

/* The number, or 0 if it exceeds 2^64 - 1. */
static uint64_t big_to_table(const big *number)
{
    for (unsigned place = 2; place < LIMBS; place++)
        if (number->limbs[place] != 0)
            return 0;
    return (uint64_t)number->limbs[1] << 32 | number->limbs[0];
}

/* ---- Counts ---- */

/* Formula (1): all factors of the numerator are multiplied, then those of the denominator divided out. */
static uint64_t gaussian_by_product(unsigned q, unsigned n, unsigned k)
{
    if (k > n)
        return 0;
    big number = {{1}};
    for (unsigned i = 0; i < k; i++)
        big_multiply(&number, second_powers[q][n - i] - 1);
    for (unsigned i = 0; i < k; i++)
        big_divide_exactly(&number, second_powers[q][k - i] - 1);
    return big_to_table(&number);
}

static void fill_gaussian(unsigned q)
{
    for (unsigned n = 0; n <= MAX_LENGTH; n++)
        for (unsigned k = 0; k <= MAX_LENGTH; k++)
            second_gaussian[q][n][k] = gaussian_by_product(q, n, k);
}

/* ---- Calls ---- */

void second_init(void)
{
    for (unsigned place = 0; place < FIELD_COUNT; place++) {
        unsigned q = (unsigned)second_field_sizes[place];
        fill_field(q);
        fill_powers(q);
        fill_gaussian(q);
    }
}

bool second_is_field(uint64_t q)
{
    for (unsigned place = 0; place < FIELD_COUNT; place++)
        if (second_field_sizes[place] == q)
            return true;
    return false;
}

uint64_t second_table_entry(unsigned place)
{
    if (place >= TABLE_LENGTH)
        return 0;
    return second_gaussian[second_field_sizes[place / 289]][place / 17 % 17][place % 17];
}

uint32_t second_count(uint64_t q, uint64_t n, uint64_t k, uint64_t *count)
{
    *count = 0;
    if (!second_is_field(q))
        return REFUSED_FIELD;
    if (n < 1 || n > MAX_LENGTH || k > n)
        return REFUSED_SHAPE;
    if (second_gaussian[q][n][k] == 0)
        return REFUSED_COUNT;
    *count = second_gaussian[q][n][k];
    return ACCEPTED;
}

uint32_t second_setting(uint64_t q, uint64_t n, uint64_t k, uint64_t numbering, uint64_t *count)
{
    uint32_t refusal = second_count(q, n, k, count);
    if (refusal != ACCEPTED)
        return refusal;
    if (numbering == EXTENDED || numbering == FERRERS)
        return ACCEPTED;
    *count = 0;
    return REFUSED_NUMBERING;
}
