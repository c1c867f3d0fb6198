/*
 * Tests the list program as a child process: what it writes for an input is compared byte by byte with the second
 * implementation's text. Every setting, listed or refused; every input that is one byte away from a line; other inputs
 * that are no line; long inputs; and ends of pipes that are closed or fail.
 *
 * The argument is the program, `target/bin/list` if there is none.
 */
#define _XOPEN_SOURCE 700

#include "cases.h"
#include "check.h"
#include "program.h"

#include <errno.h>
#include <poll.h>
#include <time.h>

/* The longest output is 17,475,647 bytes long, that of 2,16,15. */
enum { OUTPUT_LIMIT = 20000000, LONG_INPUT = 4000000, SHOWN_LIMIT = 40, RANDOM_ROUNDS = 1000 };

static const char *program = "target/bin/list";
static const char line[] = "2,3,1\n";

/* What the program wrote, and how it ended. */
static struct {
    char text[OUTPUT_LIMIT];
    size_t length;
    int status;
} output;

/* ---- Running the program ---- */

/* Writes the next piece of the input; false at the end, or where the program reads no more. */
static bool feed(int end, const uint8_t *input, size_t length, size_t *fed, size_t piece)
{
    size_t rest = length - *fed;
    ssize_t written = write(end, input + *fed, rest < piece ? rest : piece);
    if (written < 0)
        return errno == EAGAIN;
    *fed += (size_t)written;
    return *fed < length;
}

/* Reads up to a number of bytes of the output; false at its end. */
static bool collect(int end, size_t most)
{
    size_t room = OUTPUT_LIMIT - output.length;
    ssize_t got = read(end, output.text + output.length, room < most ? room : most);
    output.length += got > 0 ? (size_t)got : 0;
    return got > 0;
}

/* Collects the output up to a length, or to its end, and closes it. */
static void collect_up_to(int end, size_t most)
{
    output.length = 0;
    while (output.length < most && collect(end, most - output.length))
        continue;
    close(end);
}

/* Feeds the input, at most a piece at a time, and collects the output until the program closes it. */
static void exchange(int to, int from, const uint8_t *input, size_t length, size_t piece)
{
    static const struct timespec pause = {0, 1000000};
    struct pollfd ends[2] = {{to, POLLOUT, 0}, {from, POLLIN, 0}};
    size_t fed = 0;
    bool open = true;
    fcntl(to, F_SETFL, O_NONBLOCK);
    while (open && poll(ends, 2, -1) > 0) {
        if (ends[0].revents != 0 && !feed(to, input, length, &fed, piece)) {
            close(to);
            ends[0].fd = NO_END;
        }
        if (piece < length)
            nanosleep(&pause, NULL);
        open = ends[1].revents == 0 || collect(from, OUTPUT_LIMIT);
    }
    if (ends[0].fd != NO_END)
        close(to);
    close(from);
}

/* Runs the program on an input that comes in pieces. */
static void run_pieces(const uint8_t *input, size_t length, size_t piece)
{
    int to[2], from[2];
    program_pipe(to);
    program_pipe(from);
    pid_t child = program_start(program, to[0], from[1]);
    close(to[0]);
    close(from[1]);
    output.length = 0;
    exchange(to[1], from[0], input, length, piece);
    output.status = program_wait(child);
}

static void run(const uint8_t *input, size_t length)
{
    run_pieces(input, length, SIZE_MAX);
}

/* ---- Comparing ---- */

/* The beginning of an input with its unprintable bytes as numbers. */
static const char *shown(const uint8_t *input, size_t length)
{
    static char text[SHOWN_LIMIT * 4 + 1];
    size_t at = 0;
    text[0] = '\0';
    for (size_t place = 0; place < length && place < SHOWN_LIMIT; place++)
        at += (size_t)snprintf(text + at, sizeof text - at,
                               input[place] >= ' ' && input[place] <= '~' ? "%c" : "\\x%02X", input[place]);
    return text;
}

/* The output is this text, and the program exits with status 0. */
static void compare_text(const uint8_t *input, size_t length, const char *text, size_t text_length)
{
    check(output.status == 0, "\"%s\", %zu bytes: ends with %#x", shown(input, length), length, output.status);
    size_t place = 0;
    while (place < text_length && place < output.length && text[place] == output.text[place])
        place++;
    check(output.length == text_length && place == text_length,
          "\"%s\", %zu bytes: other output at byte %zu of %zu instead of %zu", shown(input, length), length, place,
          output.length, text_length);
}

/* The second implementation's text; the caller frees it. */
static char *expected(const uint8_t *input, size_t length, size_t *text_length)
{
    char *text = NULL;
    FILE *out = open_memstream(&text, text_length);
    if (out == NULL)
        program_trouble("open_memstream");
    second_list(input, length, out);
    if (fclose(out) != 0)
        program_trouble("fclose");
    return text;
}

/* The output is the second implementation's. */
static void compare_output(const uint8_t *input, size_t length)
{
    size_t text_length;
    char *text = expected(input, length, &text_length);
    compare_text(input, length, text, text_length);
    free(text);
}

static void compare(const uint8_t *input, size_t length)
{
    run(input, length);
    compare_output(input, length);
}

/* The program and the second implementation both give this text. */
static void compare_literal(const char *input, size_t length, const char *text)
{
    const uint8_t *bytes = (const uint8_t *)input;
    compare(bytes, length);
    compare_text(bytes, length, text, strlen(text));
}

/* The line of settings, and its length. */
static size_t write_setting(uint64_t q, uint64_t n, uint64_t k, char text[64])
{
    return (size_t)snprintf(text, 64, SETTING_FORMAT "\n", q, n, k);
}

static void compare_setting(uint64_t q, uint64_t n, uint64_t k)
{
    char text[64];
    size_t length = write_setting(q, n, k, text);
    compare((const uint8_t *)text, length);
}

/* ---- Settings ---- */

/* Document 01's listings and refusals letter by letter, and others that follow from it at sight. */
static void figures_group(void)
{
    static const char *const figures[][2] = {
        {"2,3,1\n", "extended,ferrers,rows\n0,0,100\n1,1,110\n2,4,010\n3,2,101\n4,3,111\n5,5,011\n6,6,001\n"},
        {"2,3,0\n", "extended,ferrers,rows\n0,0,\n"},
        {"3,2,2\n", "extended,ferrers,rows\n0,0,10/01\n"},
        {"4,2,1\n", "extended,ferrers,rows\n0,0,10\n1,1,11\n2,2,12\n3,3,13\n4,4,01\n"},
        {"8,2,1\n", "extended,ferrers,rows\n0,0,10\n1,1,11\n2,2,12\n3,3,13\n4,4,14\n5,5,15\n6,6,16\n7,7,17\n8,8,01\n"},
        {"2,16,6\n", "refused,12\n"}, {"2,16,7\n", "refused,3\n"},
        {"4,6,2\n", "refused,12\n"}, {"8,16,1\n", "refused,12\n"}, {"8,16,2\n", "refused,3\n"},
        {"6,3,1\n", "refused,1\n"}, {"2,17,1\n", "refused,2\n"},
        {"6,17,18\n", "refused,1\n"}, {"0,0,0\n", "refused,1\n"},
        {"2,0,0\n", "refused,2\n"}, {"2,3,4\n", "refused,2\n"},
        {"7,16,8\n", "refused,3\n"}, {"999,999,999\n", "refused,1\n"}, {"2,999,999\n", "refused,2\n"},
        {"2,3,1", "refused,11\n"}, {"6,17,18", "refused,11\n"}, {"2,16,7\n\n", "refused,11\n"},
    };
    check_group_begin("document 01's figures");
    for (unsigned place = 0; place < COUNT_OF(figures); place++)
        compare_literal(figures[place][0], strlen(figures[place][0]), figures[place][1]);
    check_group_end();
}

/* Every n and k up to 18. */
static void settings_group(uint64_t q)
{
    check_group_begin("every setting, q = %" PRIu64, q);
    every_shape(q, compare_setting);
    check_group_end();
}

/* A wrong field size is refused 1; one of four digits or more makes no line. */
static void wrong_sizes_group(void)
{
    check_group_begin("wrong field sizes");
    for (size_t place = 0; place < COUNT_OF(wrong_sizes); place++) {
        char text[64];
        size_t length = write_setting(wrong_sizes[place], 3, 1, text);
        compare_literal(text, length, wrong_sizes[place] < 1000 ? "refused,1\n" : "refused,11\n");
    }
    check_group_end();
}

/*
 * How many lines are written at the counts nearest to 65,536; none equals it. The listing has a line more, the header.
 * What stands in the lines is compared with every setting.
 */
static void limit_group(void)
{
    static const setting nearest[] = {
        {2, 9, 2, 43435}, {2, 9, 7, 43435}, {2, 16, 1, 65535}, {2, 16, 15, 65535},
        {4, 9, 1, 87381}, {4, 9, 8, 87381}, {3, 11, 1, 88573}, {3, 11, 10, 88573},
    };
    check_group_begin("listings of about 65,536 lines");
    for (unsigned place = 0; place < COUNT_OF(nearest); place++) {
        const setting *s = &nearest[place];
        char text[64];
        size_t length = write_setting(s->q, s->n, s->k, text);
        uint64_t lines = 0;
        run((const uint8_t *)text, length);
        for (size_t byte = 0; byte < output.length; byte++)
            lines += output.text[byte] == '\n';
        check(lines == (s->count <= 65536 ? s->count + 1 : 1), SETTING_FORMAT ": %" PRIu64 " lines", SETTING_VALUES(s),
              lines);
    }
    check_group_end();
}

/* A number as one of the three, up to 99 as each of them and from 100 to 999 as one in turn; all three near a limit. */
static void numbers_group(void)
{
    static const uint64_t near[] = {0, 1, 2, 4, 6, 8, 9, 256, 258, 999};
    enum { NEAR = COUNT_OF(near) };
    check_group_begin("numbers of 1 to 3 digits");
    for (uint64_t number = 0; number < 1000; number++) {
        if (number < 100 || number % 3 == 0)
            compare_setting(number, 3, 1);
        if (number < 100 || number % 3 == 1)
            compare_setting(2, number, 1);
        if (number < 100 || number % 3 == 2)
            compare_setting(3, 4, number);
    }
    for (unsigned code = 0; code < NEAR * NEAR * NEAR; code++)
        compare_setting(near[code % NEAR], near[code / NEAR % NEAR], near[code / NEAR / NEAR]);
    check_group_end();
}

/* ---- Inputs that are no line ---- */

static void malformed_group(void)
{
#define TEXT(text) {text, sizeof text - 1}
    static const struct {
        const char *input;
        size_t length;
    } texts[] = {
        TEXT(""), TEXT("\n"), TEXT(","), TEXT(",,"), TEXT(",,\n"), TEXT(",,,\n"), TEXT("2"), TEXT("2\n"),
        TEXT("2,3\n"), TEXT("2,3,\n"), TEXT(",3,1\n"), TEXT("2,,1\n"), TEXT("2,3,1,\n"), TEXT(",2,3,1\n"),
        TEXT("2,3,1,0\n"), TEXT("2,3,1"), TEXT("2,3,1\r\n"), TEXT("2,3,1\r"), TEXT("2,3,1\n\r"), TEXT("\n2,3,1\n"),
        TEXT("2,3,1\n\n"), TEXT("2,3,1\n2,3,1\n"), TEXT("2,3,1\n2,3,1"), TEXT("2,3\n,1\n"), TEXT("2\n3\n1\n"),
        TEXT("2,3,1\n "), TEXT("2,3,1\n0"), TEXT(" 2,3,1\n"), TEXT("2 ,3,1\n"), TEXT("2, 3,1\n"), TEXT("2,3 ,1\n"),
        TEXT("2,3, 1\n"), TEXT("2,3,1 \n"), TEXT("2 3 1\n"), TEXT("2;3;1\n"), TEXT("2.3.1\n"), TEXT("\t2,3,1\n"),
        TEXT("+2,3,1\n"), TEXT("2,+3,1\n"), TEXT("2,3,+1\n"), TEXT("-2,3,1\n"), TEXT("2,3,-1\n"), TEXT("2,3,-0\n"),
        TEXT("02,3,1\n"), TEXT("2,03,1\n"), TEXT("2,3,01\n"), TEXT("002,003,001\n"), TEXT("2,3,00\n"),
        TEXT("2,3,000\n"), TEXT("00,0,0\n"), TEXT("2,3,0000\n"), TEXT("2,16,0001\n"), TEXT("1000,3,1\n"),
        TEXT("2,1000,1\n"), TEXT("2,3,1000\n"), TEXT("0002,3,1\n"), TEXT("9999,9999,9999\n"), TEXT("999,999,9999"),
        TEXT("999,999,9999\n"), TEXT("999,999,999"), TEXT("999,999,999\n\n"), TEXT("18446744073709551618,3,1\n"),
        TEXT("258,3,4294967297\n"), TEXT("q,n,k\n"), TEXT("two,three,one\n"), TEXT("0x2,3,1\n"), TEXT("2,3,1e0\n"),
        TEXT("2,3,a\n"), TEXT("2,3,1\0"), TEXT("2,3,1\0\n"), TEXT("\0002,3,1\n"), TEXT("2,3,1\n\0"),
        TEXT("2,\0003,1\n"), TEXT("\0"), TEXT("\0\0\0\0\0\0"), TEXT("\xFF\xFE\n"), TEXT("\xEF\xBB\xBF" "2,3,1\n"),
        TEXT("2\xC2\xA0,3,1\n"), TEXT("\xB2,3,1\n"), TEXT("2,3,\xB1\n"), TEXT("2,3,1\x8A"),
        TEXT("extended,ferrers,rows\n"), TEXT("refused,11\n"), TEXT("\"2\",\"3\",\"1\"\n"), TEXT("2,3,1\x1A"),
    };
    check_group_begin("inputs that are no line");
    for (unsigned place = 0; place < COUNT_OF(texts); place++)
        compare_literal(texts[place].input, texts[place].length, "refused,11\n");
    check_group_end();
#undef TEXT
}

/* Each byte of a line set to every other value. */
static void changed_byte_group(void)
{
    uint8_t input[sizeof line - 1];
    check_group_begin("a byte changed");
    for (unsigned code = 0; code < sizeof input * 256; code++) {
        memcpy(input, line, sizeof input);
        input[code / 256] = (uint8_t)code;
        compare(input, sizeof input);
    }
    check_group_end();
}

/* Every byte put before each byte of a line and after the last. */
static void added_byte_group(void)
{
    uint8_t input[sizeof line];
    check_group_begin("a byte added");
    for (unsigned code = 0; code < sizeof input * 256; code++) {
        unsigned place = code / 256;
        memcpy(input, line, place);
        input[place] = (uint8_t)code;
        memcpy(input + place + 1, line + place, sizeof line - 1 - place);
        compare(input, sizeof input);
    }
    check_group_end();
}

/* Lines cut at every place, from the left and from the right. */
static void cut_group(void)
{
    static const char *const lines[] = {line, "2,16,15\n", "999,999,999\n", "7,10,0\n"};
    check_group_begin("lines cut short");
    for (unsigned place = 0; place < COUNT_OF(lines); place++)
        for (size_t length = strlen(lines[place]), cut = 1; cut <= length; cut++) {
            compare((const uint8_t *)lines[place], length - cut);
            compare((const uint8_t *)lines[place] + cut, length - cut);
        }
    check_group_end();
}

/* Texts out of the bytes that lines are made of, and lines with a few of their bytes changed to such. */
static void random_group(void)
{
    static const char bytes[] = "0123456789,,,\n\n \r";
    uint8_t input[64];
    check_group_begin("random inputs");
    for (unsigned round = 0; round < RANDOM_ROUNDS; round++) {
        size_t length = random_below(16);
        if (round % 2 == 0)
            length = write_setting(2 + random_below(3), 1 + random_below(6), random_below(5), (char *)input);
        for (size_t place = 0; place < length; place++)
            if (round % 2 == 1 || random_below(6) == 0)
                input[place] = (uint8_t)bytes[random_below(sizeof bytes - 1)];
        compare(input, length);
    }
    check_group_end();
}

/* ---- Long inputs, and inputs in pieces ---- */

/* Megabytes of one text; the program need not read them. */
static void long_group(void)
{
    static const char *const texts[] = {line, "2,16,15\n", "0", "1", ",", "\n", "999,999,999\n", " ", "2,3,1"};
    static const size_t lengths[] = {13, 14, 4096, 65535, 65536, 65537, LONG_INPUT};
    static uint8_t input[LONG_INPUT];
    check_group_begin("long inputs");
    for (unsigned place = 0; place < COUNT_OF(texts); place++) {
        for (size_t byte = 0, period = strlen(texts[place]); byte < sizeof input; byte++)
            input[byte] = (uint8_t)texts[place][byte % period];
        for (unsigned number = 0; number < COUNT_OF(lengths); number++)
            compare(input, lengths[number]);
        memset(input + strlen(texts[place]), 0, sizeof input - strlen(texts[place]));
        compare(input, sizeof input);
    }
    check_group_end();
}

static void pieces_group(void)
{
    static const char *const inputs[] = {line, "2,12,1\n", "2,16,6\n", "999,999,999\n", "2,3,1", "2,3,1\n\n", "x"};
    check_group_begin("inputs in pieces");
    for (unsigned place = 0; place < COUNT_OF(inputs); place++)
        for (size_t piece = 1; piece <= 4; piece++) {
            run_pieces((const uint8_t *)inputs[place], strlen(inputs[place]), piece);
            compare_output((const uint8_t *)inputs[place], strlen(inputs[place]));
        }
    check_group_end();
}

/* ---- Ends that fail ---- */

/* Starts the program on a line that a pipe holds. */
static pid_t start_on_line(const char *text, int out)
{
    int to[2];
    program_pipe(to);
    if (write(to[1], text, strlen(text)) != (ssize_t)strlen(text))
        program_trouble("write");
    close(to[1]);
    pid_t child = program_start(program, to[0], out);
    close(to[0]);
    return child;
}

/*
 * Reads some of a listing and closes the pipe. The next write fails, also where the program is started with SIGPIPE at its default, since its
 * start-up ignores that signal; and it ends by itself, with status 0.
 */
static void closed_output(const char *text, const char *whole, size_t most, bool ignored)
{
    int from[2];
    program_pipe(from);
    signal(SIGPIPE, ignored ? SIG_IGN : SIG_DFL);
    pid_t child = start_on_line(text, from[1]);
    signal(SIGPIPE, SIG_IGN);
    close(from[1]);
    collect_up_to(from[0], most);
    int status = program_wait(child);
    check(WIFEXITED(status) && WEXITSTATUS(status) == 0, "closed after %zu bytes: ends with %#x", most, status);
    check(output.length == most && memcmp(output.text, whole, most) == 0, "closed after %zu bytes: other output", most);
}

static void closed_output_group(void)
{
    static const char text[] = "2,16,15\n";
    static const size_t most[] = {0, 1, 22, 23, 20480, 65536, 1000000, 17000000};
    size_t whole_length;
    char *whole = expected((const uint8_t *)text, strlen(text), &whole_length);
    check_group_begin("output closed early");
    for (unsigned place = 0; place < COUNT_OF(most); place++) {
        closed_output(text, whole, most[place], true);
        closed_output(text, whole, most[place], false);
    }
    check_group_end();
    free(whole);
}

/* The program ends by itself, with any status, though its output fails. */
static void failing_output(const char *text, int out, const char *what)
{
    int status = program_wait(start_on_line(text, out));
    check(WIFEXITED(status), "%s, \"%s\": ends with %#x", what, shown((const uint8_t *)text, strlen(text)), status);
}

/* Output that is closed from the start, or has no room. */
static void failing_output_group(void)
{
    static const char *const lines[] = {line, "2,16,15\n", "6,3,1\n"};
    int full = open("/dev/full", O_WRONLY | O_CLOEXEC);
    check_group_begin("output that fails");
    for (unsigned place = 0; place < COUNT_OF(lines); place++) {
        failing_output(lines[place], NO_END, "no output");
        if (full != NO_END)
            failing_output(lines[place], full, "full device");
    }
    if (full != NO_END)
        close(full);
    check_group_end();
}

/* Input that is closed from the start, or is a folder: a read that fails is the input's end. */
static void failing_input_group(void)
{
    int folder = open("/", O_RDONLY | O_CLOEXEC);
    const int inputs[] = {NO_END, folder};
    check_group_begin("input that fails");
    for (unsigned place = 0; place < 2; place++) {
        int from[2];
        program_pipe(from);
        pid_t child = program_start(program, inputs[place], from[1]);
        close(from[1]);
        collect_up_to(from[0], OUTPUT_LIMIT);
        output.status = program_wait(child);
        compare_output((const uint8_t *)"", 0);
    }
    close(folder);
    check_group_end();
}

int main(int argument_count, char **arguments)
{
    if (argument_count > 1)
        program = arguments[1];
    if (access(program, X_OK) != 0)
        program_trouble(program);
    signal(SIGPIPE, SIG_IGN);
    second_init();
    figures_group();
    numbers_group();
    malformed_group();
    changed_byte_group();
    added_byte_group();
    cut_group();
    random_group();
    long_group();
    pieces_group();
    failing_input_group();
    failing_output_group();
    for (unsigned place = 0; place < FIELD_COUNT; place++)
        settings_group(second_field_sizes[place]);
    wrong_sizes_group();
    limit_group();
    closed_output_group();
    return check_summary("list");
}
