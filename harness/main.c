// Plays schedules through the C entry of the runner and compares what it prints, and its answer, with what the
// rulebook says. The arguments are the example schedules; beside each NAME.txt stands NAME.out.
#include "dohvalin.h"

#include <stdbool.h>
#include <stdio.h>
#include <string.h>

enum {
    // This much output suffices for every schedule.
    OUTPUT_LENGTH = 65536,
    // Bytes before and behind the output that no run may touch.
    GUARD_LENGTH = 64,
    ROOM_LENGTH = GUARD_LENGTH + OUTPUT_LENGTH + GUARD_LENGTH,
    MOST_TEXT = 8192,
    // One byte more than the longest text, so that a text which is too long can be held too.
    TEXT_LENGTH = MOST_TEXT + 1,
    PATH_LENGTH = 1024,
    // No printed line has a byte of this value, so an unchanged byte cannot be mistaken for a printed one.
    FILL = 0xA5,
    BYTES_FACTOR = 16,
    OUTPUT_FULL = 10
};

struct text {
    const char *bytes;
    size_t length;
};

struct test_case {
    const char *name;
    struct text input;
    struct text output;
};

struct tally {
    size_t passed;
    size_t failed;
};

// A text that is put together piece by piece.
struct builder {
    char *bytes;
    size_t capacity;
    size_t length;
};

#define TEXT(literal) { (literal), sizeof(literal) - 1 }

// A ring of 4, 2 tasks, 2 pairs to a log, last place 9, 64 cells.
#define WORDS "m 4 2 2 9 64\n"
#define TAGS "t 4 2 2 9 64\n"

static const struct test_case cases[] = {
    // Texts and lines.
    { "empty text", TEXT(""), TEXT("") },
    { "only a line feed", TEXT("\n"), TEXT("e 9 1\n") },
    { "an empty line", TEXT(WORDS "\nb 0\n"), TEXT("m ok\ne 9 2\n") },
    { "first line without its line feed", TEXT("m 4 2 2 9 64"), TEXT("e 9 1\n") },
    { "last line without its line feed", TEXT(WORDS "b 0\nb 1"), TEXT("m ok\nb 0 0\ne 9 3\n") },
    { "first line alone", TEXT(WORDS), TEXT("m ok\n") },
    { "tags alone", TEXT(TAGS), TEXT("t ok\n") },
    { "no call after a broken line", TEXT(WORDS "b 0\nz 0\nq 0\n"), TEXT("m ok\nb 0 0\ne 9 3\n") },

    // Numbers.
    { "largest number as last place", TEXT("m 4 2 2 4294967295 64\n"), TEXT("m ok\n") },
    { "number too large as last place", TEXT("m 4 2 2 4294967296 64\n"), TEXT("e 9 1\n") },
    { "largest number as task", TEXT(WORDS "b 4294967295\n"), TEXT("m ok\ne 7\n") },
    { "number too large as task", TEXT(WORDS "b 4294967296\n"), TEXT("m ok\ne 9 2\n") },
    { "largest number as address", TEXT(WORDS "b 0\nr 0 4294967295\n"), TEXT("m ok\nb 0 0\ne 8\n") },
    { "number too large as address", TEXT(WORDS "b 0\nr 0 4294967296\n"), TEXT("m ok\nb 0 0\ne 9 3\n") },
    { "largest number as value", TEXT(WORDS "b 0\nw 0 1 4294967295\nr 0 1\n"),
      TEXT("m ok\nb 0 0\nw 0 1\nr 0 4294967295 0\n") },
    { "number too large as value", TEXT(WORDS "b 0\nw 0 1 4294967296\n"), TEXT("m ok\nb 0 0\ne 9 3\n") },
    { "number of ten digits too large", TEXT(WORDS "b 9999999999\n"), TEXT("m ok\ne 9 2\n") },
    { "2 to the 64th power", TEXT(WORDS "b 18446744073709551616\n"), TEXT("m ok\ne 9 2\n") },
    { "one zero", TEXT(WORDS "b 0\n"), TEXT("m ok\nb 0 0\n") },
    { "two zeros", TEXT(WORDS "b 00\n"), TEXT("m ok\ne 9 2\n") },
    { "leading zero", TEXT(WORDS "b 01\n"), TEXT("m ok\ne 9 2\n") },
    { "leading zero in the first line", TEXT("m 04 2 2 9 64\n"), TEXT("e 9 1\n") },
    { "minus sign", TEXT(WORDS "b -0\n"), TEXT("m ok\ne 9 2\n") },
    { "plus sign", TEXT(WORDS "b +0\n"), TEXT("m ok\ne 9 2\n") },
    { "letter in a number", TEXT(WORDS "b 0x\n"), TEXT("m ok\ne 9 2\n") },

    // Spaces and letters.
    { "double space", TEXT(WORDS "b  0\n"), TEXT("m ok\ne 9 2\n") },
    { "double space between numbers", TEXT(WORDS "b 0\nr 0  1\n"), TEXT("m ok\nb 0 0\ne 9 3\n") },
    { "double space in the first line", TEXT("m  4 2 2 9 64\n"), TEXT("e 9 1\n") },
    { "space before the letter", TEXT(WORDS " b 0\n"), TEXT("m ok\ne 9 2\n") },
    { "space behind the last number", TEXT(WORDS "b 0 \n"), TEXT("m ok\ne 9 2\n") },
    { "no space", TEXT(WORDS "b0\n"), TEXT("m ok\ne 9 2\n") },
    { "tab for a space", TEXT(WORDS "b\t0\n"), TEXT("m ok\ne 9 2\n") },
    { "carriage return", TEXT(WORDS "b 0\r\n"), TEXT("m ok\ne 9 2\n") },
    { "carriage return in the first line", TEXT("m 4 2 2 9 64\r\n"), TEXT("e 9 1\n") },
    { "zero byte", TEXT(WORDS "b 0\0\n"), TEXT("m ok\ne 9 2\n") },
    { "byte above 127", TEXT(WORDS "b \xB2\n"), TEXT("m ok\ne 9 2\n") },
    { "unknown letter", TEXT(WORDS "z 0\n"), TEXT("m ok\ne 9 2\n") },
    { "capital letter", TEXT(WORDS "B 0\n"), TEXT("m ok\ne 9 2\n") },
    { "two letters", TEXT(WORDS "bb 0\n"), TEXT("m ok\ne 9 2\n") },

    // The count of numbers.
    { "begin without a number", TEXT(WORDS "b\n"), TEXT("m ok\ne 9 2\n") },
    { "begin with a space and no number", TEXT(WORDS "b \n"), TEXT("m ok\ne 9 2\n") },
    { "begin with two numbers", TEXT(WORDS "b 0 0\n"), TEXT("m ok\ne 9 2\n") },
    { "read with one number", TEXT(WORDS "r 0\n"), TEXT("m ok\ne 9 2\n") },
    { "read with three numbers", TEXT(WORDS "r 0 1 2\n"), TEXT("m ok\ne 9 2\n") },
    { "write with two numbers", TEXT(WORDS "w 0 1\n"), TEXT("m ok\ne 9 2\n") },
    { "commit with two numbers", TEXT(WORDS "c 0 1\n"), TEXT("m ok\ne 9 2\n") },
    { "work without a number", TEXT(WORDS "k\n"), TEXT("m ok\ne 9 2\n") },
    { "quit with two numbers", TEXT(WORDS "q 0 1\n"), TEXT("m ok\ne 9 2\n") },
    { "first line with four numbers", TEXT("m 4 2 2 9\n"), TEXT("e 9 1\n") },
    { "first line with six numbers", TEXT("m 4 2 2 9 64 1\n"), TEXT("e 9 1\n") },
    { "line with many numbers", TEXT(WORDS "w 0 1 2 3 4 5 6 7 8 9\n"), TEXT("m ok\ne 9 2\n") },
    { "quality with words", TEXT(WORDS "b 0\nw 0 1 5 7\n"), TEXT("m ok\nb 0 0\ne 9 3\n") },
    { "no quality with tags", TEXT(TAGS "b 0\nw 0 1 5\n"), TEXT("t ok\nb 0 0\ne 9 3\n") },
    { "quality and one number more", TEXT(TAGS "b 0\nw 0 1 5 7 9\n"), TEXT("t ok\nb 0 0\ne 9 3\n") },

    // The first line.
    { "first line begins", TEXT("b 0\n"), TEXT("e 9 1\n") },
    { "first line writes", TEXT("w 0 1 5\n" WORDS), TEXT("e 9 1\n") },
    { "second line makes words", TEXT(WORDS WORDS), TEXT("m ok\ne 9 2\n") },
    { "second line makes tags", TEXT(WORDS TAGS), TEXT("m ok\ne 9 2\n") },
    { "all limits", TEXT("m 64 8 16 9 256\nb 7\nr 7 255\n"), TEXT("m ok\nb 7 0\nr 7 0 0\n") },
    { "all limits with tags", TEXT("t 64 8 16 9 256\nb 7\nr 7 255\n"), TEXT("t ok\nb 7 0\nr 7 0 0 0\n") },
    { "too many slots", TEXT("m 65 8 16 9 256\n"), TEXT("e 9 1\n") },
    { "too many tasks", TEXT("m 64 9 16 9 256\n"), TEXT("e 9 1\n") },
    { "too many pairs", TEXT("m 64 8 17 9 256\n"), TEXT("e 9 1\n") },
    { "too many cells", TEXT("m 64 8 16 9 257\n"), TEXT("e 9 1\n") },
    { "too many slots with tags", TEXT("t 65 8 16 9 256\n"), TEXT("e 9 1\n") },
    { "too many tasks with tags", TEXT("t 64 9 16 9 256\n"), TEXT("e 9 1\n") },
    { "too many pairs with tags", TEXT("t 64 8 17 9 256\n"), TEXT("e 9 1\n") },
    { "too many cells with tags", TEXT("t 64 8 16 9 257\n"), TEXT("e 9 1\n") },
    { "smallest engine", TEXT("m 2 1 1 1 0\nb 0\nr 0 0\n"), TEXT("m ok\nb 0 0\ne 8\n") },

    // Refused makings.
    { "one slot ends the run", TEXT("m 1 1 1 1 1\nb 0\n"), TEXT("e 1\n") },
    { "no slots", TEXT("m 0 1 1 1 1\n"), TEXT("e 1\n") },
    { "no tasks end the run", TEXT("m 2 0 1 1 1\nb 0\n"), TEXT("e 2\n") },
    { "no pairs end the run", TEXT("m 2 1 0 1 1\nb 0\n"), TEXT("e 3\n") },
    { "last place 0 ends the run", TEXT("m 2 1 1 0 1\nb 0\n"), TEXT("e 4\n") },
    { "one slot with tags", TEXT("t 1 1 1 1 1\nb 0\n"), TEXT("e 1\n") },
    { "no broken line after a refused making", TEXT("m 1 1 1 1 1\nz\n"), TEXT("e 1\n") },
    { "lowest refusal 1", TEXT("m 1 0 0 0 0\n"), TEXT("e 1\n") },
    { "lowest refusal 2", TEXT("m 2 0 0 0 0\n"), TEXT("e 2\n") },
    { "lowest refusal 3", TEXT("m 2 1 0 0 0\n"), TEXT("e 3\n") },
    { "broken before refused", TEXT("m 1 9 1 1 1\n"), TEXT("e 9 1\n") },

    // Qualities.
    { "largest quality", TEXT(TAGS "b 0\nw 0 1 5 255\nr 0 1\n"), TEXT("t ok\nb 0 0\nw 0 1\nr 0 5 255 0\n") },
    { "quality too large", TEXT(TAGS "b 0\nw 0 1 5 256\n"), TEXT("t ok\nb 0 0\ne 9 3\n") },
    { "quality with a leading zero", TEXT(TAGS "b 0\nw 0 1 5 07\n"), TEXT("t ok\nb 0 0\ne 9 3\n") },

    // Phases and refusals.
    { "calls forbidden while idle", TEXT(WORDS "r 0 0\nw 0 0 1\nc 0\nk 0\nq 0\n"),
      TEXT("m ok\ne 22\ne 22\ne 22\ne 22\ne 22\n") },
    { "calls forbidden while open", TEXT(WORDS "b 0\nb 0\nk 0\nq 0\n"), TEXT("m ok\nb 0 0\ne 22\ne 22\nq 0 0\n") },
    { "calls forbidden while committed",
      TEXT(WORDS "b 0\nw 0 1 5\nc 0\nb 0\nr 0 1\nw 0 1 6\nc 0\nq 0\nk 0\nk 0\n"),
      TEXT("m ok\nb 0 0\nw 0 1\nc 0 1 0\ne 22\ne 22\ne 22\ne 22\ne 22\nk 0 0\nk 0 done 1\n") },
    { "task number before address", TEXT(WORDS "r 2 64\nw 2 64 1\n"), TEXT("m ok\ne 7\ne 7\n") },
    { "address before phase", TEXT(WORDS "r 0 64\nw 0 64 1\nr 0 63\n"), TEXT("m ok\ne 8\ne 8\ne 22\n") },
    { "full log", TEXT(WORDS "b 0\nw 0 0 1\nw 0 1 2\nw 0 2 3\nw 0 64 3\nw 0 1 4\nr 0 1\nq 0\n"),
      TEXT("m ok\nb 0 0\nw 0 1\nw 0 2\ne 23\ne 8\nw 0 2\nr 0 4 0\nq 0 2\n") },
    { "places spent before ring full", TEXT("m 2 2 1 1 4\nb 0\nw 0 0 1\nc 0\nb 1\nw 1 1 1\nc 1\n"),
      TEXT("m ok\nb 0 0\nw 0 1\nc 0 1 0\nb 1 0\nw 1 1\ne 24\n") },
    { "commit of nothing on a full ring with places spent", TEXT("m 2 2 1 1 4\nb 0\nw 0 0 1\nc 0\nb 1\nc 1\n"),
      TEXT("m ok\nb 0 0\nw 0 1\nc 0 1 0\nb 1 0\nc 1 - 0\n") },
    { "full ring until the first writer is done",
      TEXT("m 2 2 1 9 4\nb 0\nw 0 0 1\nc 0\nb 1\nw 1 1 1\nc 1\nk 0\nc 1\nk 0\nc 1\n"),
      TEXT("m ok\nb 0 0\nw 0 1\nc 0 1 0\nb 1 0\nw 1 1\ne 25\nk 0 0\ne 25\nk 0 done 1\nc 1 2 1\n") },
    { "ring full before conflict",
      TEXT("m 2 2 2 9 4\nb 1\nr 1 0\nw 1 1 5\nb 0\nw 0 0 1\nc 0\nc 1\nk 0\nk 0\nc 1\n"),
      TEXT("m ok\nb 1 0\nr 1 0 0\nw 1 1\nb 0 0\nw 0 1\nc 0 1 0\ne 25\nk 0 0\nk 0 done 1\nx 1 1 1\n") },

    // Conflicts.
    { "addresses 32 apart meet in the small filter", TEXT(WORDS "b 0\nr 0 0\nb 1\nw 1 32 5\nc 1\nr 0 1\nr 0 1\n"),
      TEXT("m ok\nb 0 0\nr 0 0 0\nb 1 0\nw 1 1\nc 1 1 0\nx 0 1 1\ne 22\n") },
    { "conflict at commit", TEXT(WORDS "b 0\nr 0 0\nw 0 1 7\nb 1\nw 1 0 5\nc 1\nc 0\nb 0\n"),
      TEXT("m ok\nb 0 0\nr 0 0 0\nw 0 1\nb 1 0\nw 1 1\nc 1 1 0\nx 0 1 1\nb 0 0\n") },
    { "logged cell is read without a check", TEXT(WORDS "b 0\nr 0 0\nw 0 1 7\nb 1\nw 1 0 5\nc 1\nr 0 1\nr 0 2\n"),
      TEXT("m ok\nb 0 0\nr 0 0 0\nw 0 1\nb 1 0\nw 1 1\nc 1 1 0\nr 0 7 0\nx 0 1 1\n") },
    { "conflict behind a filter that does not meet",
      TEXT(WORDS "b 0\nr 0 0\nb 1\nw 1 0 5\nc 1\nk 1\nk 1\nb 1\nw 1 5 5\nc 1\nr 0 1\n"),
      TEXT("m ok\nb 0 0\nr 0 0 0\nb 1 0\nw 1 1\nc 1 1 0\nk 1 0\nk 1 done 1\nb 1 1\nw 1 1\nc 1 2 0\nx 0 1 2\n") },
};

// The output lies between two guards.
static uint8_t room[ROOM_LENGTH];

static size_t shorter(size_t left, size_t right)
{
    return left < right ? left : right;
}

// The length of the whole lines of `printed` that fit into `length` bytes.
static size_t whole_lines(struct text printed, size_t length)
{
    size_t end = shorter(printed.length, length);
    while (end > 0 && printed.bytes[end - 1] != '\n') {
        end--;
    }
    return end;
}

static bool is_unchanged(const uint8_t *bytes, size_t length)
{
    for (size_t i = 0; i < length; i++) {
        if (bytes[i] != FILL) {
            return false;
        }
    }
    return true;
}

static uint64_t answer_for(size_t written, struct text printed)
{
    uint64_t refusal = written == printed.length ? 0 : OUTPUT_FULL;
    return (uint64_t)written * BYTES_FACTOR + refusal;
}

// Everything that is not printed is still at the fill: the guards and the bytes behind the last whole line.
static bool holds_only(const char *printed, size_t written)
{
    const uint8_t *output = room + GUARD_LENGTH;
    const uint8_t *behind = output + written;
    return is_unchanged(room, GUARD_LENGTH) && memcmp(output, printed, written) == 0
        && is_unchanged(behind, (size_t)(room + ROOM_LENGTH - behind));
}

static void show_failure(const struct test_case *test, size_t output_length, uint64_t expected, uint64_t answer)
{
    size_t written = shorter((size_t)(answer / BYTES_FACTOR), output_length);
    printf("failed: %s, with %zu bytes of output\n", test->name, output_length);
    printf("expected answer %llu, got %llu\n", (unsigned long long)expected, (unsigned long long)answer);
    printf("expected:\n%.*s", (int)whole_lines(test->output, output_length), test->output.bytes);
    printf("got:\n%.*s", (int)written, (const char *)(room + GUARD_LENGTH));
    printf("guards and rest %s\n", is_unchanged(room, GUARD_LENGTH)
        && is_unchanged(room + GUARD_LENGTH + written, ROOM_LENGTH - GUARD_LENGTH - written) ? "unchanged" : "changed");
}

static bool plays_into(const struct test_case *test, size_t output_length)
{
    size_t written = whole_lines(test->output, output_length);
    uint64_t expected = answer_for(written, test->output);
    memset(room, FILL, ROOM_LENGTH);
    uint64_t answer = dohvalin_run(
        (const uint8_t *)test->input.bytes, test->input.length, room + GUARD_LENGTH, output_length);
    if (answer == expected && holds_only(test->output.bytes, written)) {
        return true;
    }
    show_failure(test, output_length, expected, answer);
    return false;
}

// Plays into outputs of every length from 0 up to the one that just suffices.
static bool plays_into_every_length(const struct test_case *test)
{
    for (size_t length = 0; length <= test->output.length; length++) {
        if (!plays_into(test, length)) {
            return false;
        }
    }
    return true;
}

static void count(struct tally *tally, bool passed)
{
    if (passed) {
        tally->passed++;
    } else {
        tally->failed++;
    }
}

static void play_case(struct tally *tally, const struct test_case *test)
{
    count(tally, plays_into(test, OUTPUT_LENGTH) && plays_into_every_length(test));
}

static void play_table(struct tally *tally)
{
    for (size_t i = 0; i < sizeof(cases) / sizeof(cases[0]); i++) {
        play_case(tally, &cases[i]);
    }
}

static void append(struct builder *builder, const char *piece, size_t times)
{
    size_t length = strlen(piece);
    for (size_t i = 0; i < times && builder->length + length <= builder->capacity; i++) {
        memcpy(builder->bytes + builder->length, piece, length);
        builder->length += length;
    }
}

static struct text built(const struct builder *builder)
{
    return (struct text){ builder->bytes, builder->length };
}

// Every output length would take long here, so the text is played in full, into an output that just suffices, and into
// one that is a byte short.
static void play_long(struct tally *tally, const struct test_case *test, size_t input_length)
{
    if (test->input.length != input_length) {
        printf("failed: %s, the text has %zu bytes\n", test->name, test->input.length);
        count(tally, false);
        return;
    }
    count(tally, plays_into(test, OUTPUT_LENGTH) && plays_into(test, test->output.length)
        && plays_into(test, test->output.length - 1));
}

// A first line of 12 bytes and 2,045 lines of 4 bytes.
static void play_longest(struct tally *tally)
{
    static char input[TEXT_LENGTH];
    static char output[OUTPUT_LENGTH];
    struct builder text = { input, TEXT_LENGTH, 0 };
    struct builder printed = { output, OUTPUT_LENGTH, 0 };
    append(&text, "m 4 1 2 9 4\n", 1);
    append(&text, "b 0\n", 2045);
    append(&printed, "m ok\nb 0 0\n", 1);
    append(&printed, "e 22\n", 2044);
    struct test_case test = { "8,192 bytes", built(&text), built(&printed) };
    play_long(tally, &test, MOST_TEXT);
}

// The same length, but the last line has a space where its line feed should be.
static void play_longest_broken(struct tally *tally)
{
    static char input[TEXT_LENGTH];
    static char output[OUTPUT_LENGTH];
    struct builder text = { input, TEXT_LENGTH, 0 };
    struct builder printed = { output, OUTPUT_LENGTH, 0 };
    append(&text, "m 4 1 2 9 4\n", 1);
    append(&text, "b 0\n", 2044);
    append(&text, "b 0 ", 1);
    append(&printed, "m ok\nb 0 0\n", 1);
    append(&printed, "e 22\n", 2043);
    append(&printed, "e 9 2046\n", 1);
    struct test_case test = { "8,192 bytes without the last line feed", built(&text), built(&printed) };
    play_long(tally, &test, MOST_TEXT);
}

// A first line of 13 bytes and 2,045 lines of 4 bytes: each line is valid, the text is too long.
static void play_too_long(struct tally *tally)
{
    static char input[TEXT_LENGTH];
    struct builder text = { input, TEXT_LENGTH, 0 };
    append(&text, "m 4 1 2 10 4\n", 1);
    append(&text, "b 0\n", 2045);
    struct test_case test = { "8,193 bytes", built(&text), TEXT("e 9 0\n") };
    play_long(tally, &test, TEXT_LENGTH);
}

// Reads a whole file; false where it cannot be read or does not fit.
static bool read_file(const char *path, struct builder *builder)
{
    FILE *file = fopen(path, "rb");
    if (file == NULL) {
        return false;
    }
    builder->length = fread(builder->bytes, 1, builder->capacity, file);
    bool whole = !ferror(file) && fgetc(file) == EOF;
    fclose(file);
    return whole;
}

// Puts the name with .out for .txt into `path`.
static bool name_of_output(const char *name, char path[PATH_LENGTH])
{
    size_t length = strlen(name);
    if (length < 4 || length >= PATH_LENGTH || strcmp(name + length - 4, ".txt") != 0) {
        return false;
    }
    memcpy(path, name, length - 4);
    memcpy(path + length - 4, ".out", 5);
    return true;
}

static void play_example(struct tally *tally, const char *name)
{
    static char input[TEXT_LENGTH];
    static char output[OUTPUT_LENGTH];
    char path[PATH_LENGTH];
    struct builder text = { input, TEXT_LENGTH, 0 };
    struct builder printed = { output, OUTPUT_LENGTH, 0 };
    if (!name_of_output(name, path) || !read_file(name, &text) || !read_file(path, &printed)) {
        printf("failed: %s, or the output beside it, cannot be read\n", name);
        count(tally, false);
        return;
    }
    struct test_case test = { name, built(&text), built(&printed) };
    play_case(tally, &test);
}

static int verdict(const struct tally *tally)
{
    if (tally->failed > 0) {
        printf("%zu cases failed, %zu passed\n", tally->failed, tally->passed);
        return 1;
    }
    printf("%zu cases passed\n", tally->passed);
    return 0;
}

int main(int argument_count, char **arguments)
{
    struct tally tally = { 0, 0 };
    if (argument_count < 2) {
        printf("failed: no example is named\n");
        return 1;
    }
    for (int i = 1; i < argument_count; i++) {
        play_example(&tally, arguments[i]);
    }
    play_table(&tally);
    play_longest(&tally);
    play_longest_broken(&tally);
    play_too_long(&tally);
    return verdict(&tally);
}
