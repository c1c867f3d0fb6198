// Writes the files that are nothing but tables: the constant table of the counts, the functions that look something up, and the proofs of
// these functions, which have a line for each arm. The argument is the folder to write to, the repository's or one like it.
// A new field is one more size in SIZES.
#include <inttypes.h>
#include <stdio.h>
#include <stdlib.h>

static const unsigned SIZES[] = {2, 3, 4, 5, 7, 8}; // as in field/specs/Field.antt

enum {
    FIELDS = sizeof SIZES / sizeof *SIZES,
    LENGTHS = 17,                               // row lengths 0 to 16
    HALVES = (LENGTHS + 1) * (LENGTHS + 1) / 4, // pairs of a row length n and a number up to n / 2
    DOTS = LENGTHS * LENGTHS,                   // above the dots of any diagram
};

static const char *folder;
static uint64_t counts[FIELDS][LENGTHS][LENGTHS];
static uint64_t diagrams[LENGTHS][LENGTHS][DOTS]; // by n, k and the number of dots

// Formula (4). A count above 2^64 - 1 is entered as 0, and so is each that it is a part of.
static void make_counts(void)
{
    for (int p = 0; p < FIELDS; p++)
        for (int n = 0; n < LENGTHS; n++) {
            uint64_t power = 1;
            counts[p][n][0] = 1;
            for (int k = 1; k <= n; k++) {
                uint64_t free = 0, pivot = counts[p][n - 1][k - 1], sum = 0;
                int large = pivot == 0 || (k < n && counts[p][n - 1][k] == 0);
                power *= SIZES[p];
                large |= __builtin_mul_overflow(power, counts[p][n - 1][k], &free);
                large |= __builtin_add_overflow(free, pivot, &sum);
                counts[p][n][k] = large ? 0 : sum;
            }
        }
}

// Lemma 1, for the box of k rows and n - k columns.
static void make_diagrams(void)
{
    for (int n = 0; n < LENGTHS; n++)
        for (int k = 0; k <= n; k++)
            for (int m = 0; m <= k * (n - k); m++)
                if (k == 0 || k == n)
                    diagrams[n][k][m] = 1;
                else
                    diagrams[n][k][m] = (m < k ? 0 : diagrams[n - 1][k][m - k]) + diagrams[n - 1][k - 1][m];
}

static FILE *begin(const char *path)
{
    char name[4096];
    snprintf(name, sizeof name, "%s/%s", folder, path);
    FILE *file = fopen(name, "w");
    if (file == NULL) {
        perror(name);
        exit(1);
    }
    return file;
}

static void end(FILE *file)
{
    if (fclose(file) != 0) {
        perror(folder);
        exit(1);
    }
}

// The proof of a look-up, with a line for each arm; `unfolding` is what the list is computed by, and `uses` where that is defined.
struct proof {
    FILE *file;
    const char *list;
};

static struct proof begin_proof(const char *crate, const char *function, const char *list, const char *uses, const char *unfolding)
{
    char path[256];
    snprintf(path, sizeof path, "crates/%s/proofs/lookup/%s/Proof.antt", crate, function);
    struct proof p = {begin(path), list};
    fprintf(p.file, "-- `%s::lookup::%s` meets its contract: each arm by computing the list's entry at its key.\n", crate, function);
    fprintf(p.file, "-- Made by tools/tables.\n");
    fprintf(p.file, "use Rattle.basics.specs.Laws.LookUp.{arm, past}\n%s", uses);
    fprintf(p.file, "use Rattle.%s.proofs.lookup.%s.Statement.{statement}\n", crate, function);
    fprintf(p.file, "use Rattle.%s.proofs.lookup.%s.Tie as tie\n\n", crate, function);
    fprintf(p.file, "pub %s_spec : {M : Type 1} → statement M\nunfolding %s\n", function, unfolding);
    fprintf(p.file, "%s_spec =\n    tie.close\n    (tie.spec\n", function);
    return p;
}

static void prove_arm(struct proof *p, int key)
{
    fprintf(p->file, "    (λ c. arm %s %d c.in-%d.is)\n", p->list, key, key);
}

static void end_proof(struct proof *p)
{
    fprintf(p->file, "    (λ c. past %s _ c.in_default.in_default-own.rest))\n", p->list);
    end(p->file);
}

// A look-up: its contract, and the arms between `begin_function` and `end_function`.
static void begin_function(FILE *file, const char *name, const char *list, const char *about)
{
    fprintf(file, "\n// %s\npub fn %s(at: u64) -> u64\n", about, name);
    fprintf(file, "    ensures { result ≡ get_or %s at 0 }\n{\n    match at {\n", list);
}

static void end_function(FILE *file)
{
    fprintf(file, "        _ => 0,\n    }\n}\n");
}

static void write_counts(void)
{
    FILE *file = begin("crates/counts/src/table.rt");
    fputs("// Document 01's \"one table\": the counts for the field sizes, rising, and n and k from 0 to 16, at\n"
          "// place (p * 17 + n) * 17 + k where p is the place of the size. A count above 2^64 - 1 is entered as 0.\n"
          "// Made by tools/tables.\n", file);
    fprintf(file, "pub const COUNTS: [u64; %d] = [\n", FIELDS * LENGTHS * LENGTHS);
    for (int p = 0; p < FIELDS; p++)
        for (int n = 0; n < LENGTHS; n++)
            for (int k = 0; k < LENGTHS; k++)
                fprintf(file, "    %" PRIu64 ",\n", counts[p][n][k]);
    fprintf(file, "];\n");
    end(file);
}

// Calls `each` for every pair of a row length n and a k up to its half whose count is in the table, with the pair's key.
static void each_half(void (*each)(FILE *, struct proof *, int, int, int, int), FILE *file, struct proof *proof)
{
    for (int p = 0; p < FIELDS; p++)
        for (int n = 0; n < LENGTHS; n++)
            for (int k = 0; k <= n / 2; k++)
                if (counts[p][n][k] != 0)
                    each(file, proof, p * HALVES + (n + 1) * (n + 1) / 4 + k, p, n, k);
}

static void name_half(FILE *file, struct proof *proof, int key, int p, int n, int k)
{
    (void)proof, (void)key;
    fprintf(file, "\nconst N_%u_%d_%d: u64 = COUNTS[(%d * 17 + %d) * 17 + %d];\n", SIZES[p], n, k, p, n, k);
}

static void read_half(FILE *file, struct proof *proof, int key, int p, int n, int k)
{
    fprintf(file, "        %d => N_%u_%d_%d,\n", key, SIZES[p], n, k);
    prove_arm(proof, key);
}

static void write_word(FILE *file, struct proof *proof, int key, uint64_t word)
{
    fprintf(file, "        %d => %" PRIu64 ",\n", key, word);
    prove_arm(proof, key);
}

// The counts that are looked up, and the powers within 64 bits of the odd sizes; those of the others are shifts.
static void write_counts_look_up(void)
{
    FILE *file = begin("crates/counts/src/lookup.rt");
    fputs("// What the counts and the powers are looked up by. The compiler makes a read-only table of each `match`, which needs no\n"
          "// stack; a constant array that is read at a place known only at run time it would copy to the stack. Made by tools/tables.\n"
          "ghost use Rattle.std.specs.Prelude.{◌≡◌, get_or};\n"
          "ghost use Rattle.counts.specs.Laws.Halves.{halves};\n"
          "ghost use Rattle.counts.specs.Laws.Powers.{powers};\n\n"
          "use crate::table::COUNTS;\n"
          "\n// N_q_n_k is the table's entry for q, n and k.", file);
    each_half(name_half, file, NULL);
    struct proof proof = begin_proof("counts", "count", "halves",
        "use Rattle.basics.specs.Laws.Ragged.{ragged}\n"
        "use Rattle.basics.specs.Table.{tabulate}\n"
        "use Rattle.counts.specs.Gaussian.{gaussian, entry}\n"
        "use Rattle.counts.specs.Laws.Halves.{halves}\n",
        "halves ragged tabulate entry gaussian");
    begin_function(file, "count", "halves",
        "The table's counts up to k = n / 2, those of a size after those of the size before; elsewhere 0.");
    each_half(read_half, file, &proof);
    end_function(file);
    end_proof(&proof);
    proof = begin_proof("counts", "power", "powers",
        "use Rattle.basics.specs.Laws.Ragged.{ragged}\n"
        "use Rattle.basics.specs.Table.{tabulate}\n"
        "use Rattle.counts.specs.Laws.Powers.{powers}\n",
        "powers ragged tabulate");
    begin_function(file, "power", "powers",
        "The powers within 64 bits of the odd sizes, those of a size after those of the size before; past them 0.");
    int key = 0;
    for (int p = 0; p < FIELDS; p++) {
        uint64_t power = 1, last = SIZES[p] % 2 == 0;
        while (!last) {
            write_word(file, &proof, key++, power);
            last = __builtin_mul_overflow(power, (uint64_t)SIZES[p], &power);
        }
    }
    end_function(file);
    end_proof(&proof);
    end(file);
}

// The partition counts that are kept, four to a word, and where those of each box begin: half of those of each box that is not higher than
// wide, by n and then by the shorter side.
static void write_diagrams_look_up(void)
{
    FILE *file = begin("crates/partitions/src/lookup.rt");
    fputs("// The tables of the partition counts, as functions: the compiler makes a read-only table of each `match`, which needs no\n"
          "// stack. Made by tools/tables.\n"
          "ghost use Rattle.std.specs.Prelude.{◌≡◌, get_or};\n"
          "ghost use Rattle.partitions.specs.Laws.PackedCounts.{words, begins};\n", file);
    struct proof proof = begin_proof("partitions", "word", "words",
        "use Rattle.basics.specs.Laws.Ragged.{ragged}\n"
        "use Rattle.partitions.specs.Laws.BoxTable.{level, next_rows, add_rows, shifted}\n"
        "use Rattle.partitions.specs.Laws.PackedCounts.{kept_counts, pack_four, words}\n",
        "words pack_four kept_counts ragged level next_rows add_rows shifted");
    begin_function(file, "word", "words",
        "Four partition counts of sixteen bits each, the first lowest.");
    uint64_t word = 0;
    int kept = 0, first[HALVES], pairs = 0;
    for (int n = 0; n < LENGTHS; n++)
        for (int a = 0; a <= n / 2; a++) {
            first[pairs++] = kept;
            for (int m = 0; m <= a * (n - a) / 2; m++) {
                word |= diagrams[n][a][m] << (kept % 4 * 16);
                if (++kept % 4 == 0) {
                    write_word(file, &proof, kept / 4 - 1, word);
                    word = 0;
                }
            }
        }
    if (kept % 4 != 0)
        write_word(file, &proof, kept / 4, word);
    end_function(file);
    end_proof(&proof);
    proof = begin_proof("partitions", "begin", "begins",
        "use Rattle.basics.specs.Laws.Ragged.{ragged}\n"
        "use Rattle.basics.specs.Sum.{sum}\n"
        "use Rattle.basics.specs.Table.{tabulate}\n"
        "use Rattle.partitions.specs.Laws.PackedCounts.{begins}\n",
        "begins ragged tabulate sum");
    begin_function(file, "begin", "begins",
        "Where the counts of a box begin; the boxes in the order of their row length and shorter side.");
    for (int i = 1; i < pairs; i++)
        write_word(file, &proof, i, first[i]);
    end_function(file);
    end_proof(&proof);
    end(file);
}

int main(int argc, char **argv)
{
    if (argc != 2) {
        fprintf(stderr, "usage: tables FOLDER\n");
        return 2;
    }
    folder = argv[1];
    make_counts();
    make_diagrams();
    write_counts();
    write_counts_look_up();
    write_diagrams_look_up();
    return 0;
}
