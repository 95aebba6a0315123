/*
 * The monitor's calls from U-Boot's prompt, a stand-alone program for its `go`: words first, then numbers in hexadecimal, with or
 * without 0x.
 *
 *   go 84000000 create BASE TEXT_PAGES [DATA_PAGES [SHARED_BASE SHARED_PAGES [ENTRY_OFFSET]]]
 *   go 84000000 run ID | resume ID | destroy ID | measure ID
 *   go 84000000 peek ADDRESS        loads a word of 64 bits, or tells the fault
 *
 * It ends with 0, and with 1 where it was refused, or a word is no number.
 */
#include "board.h"
#include "pmpmon_calls.h"

#define MOST_NUMBERS 6
#define CAUSE_CALL_OF_USER 8 /* Privileged Architecture, mcause */

long load_at(uint64_t at, uint64_t *value);

struct named {
    int64_t number;
    const char *name;
};

/* docs/formats/calls.md, "Calls of the monitor". */
static const struct named refusals[] = {
    {PMPMON_NOT_SUPPORTED, "no call of the monitor"},
    {PMPMON_WRONG_WORLD, "the caller is not the host"},
    {PMPMON_BAD_COUNT, "no text, or too many pages"},
    {PMPMON_BAD_RANGE, "a base is no multiple of a page, or a range ends above 2^56"},
    {PMPMON_BAD_ENTRY_OFFSET, "the entry offset is odd, or after the text"},
    {PMPMON_NOT_RAM, "a page is not RAM"},
    {PMPMON_NOT_YOURS, "a page is not the host's"},
    {PMPMON_TOO_MANY, "64 enclaves are live"},
    {PMPMON_NO_ENTRIES, "too few entries"},
    {PMPMON_NO_MEMORY, "the monitor is out of memory"},
    {PMPMON_NO_ENCLAVE, "no such enclave"},
    {PMPMON_WRONG_STATE, "the enclave is in another state"},
    {PMPMON_BAD_WORD, "a digest has the words 0 to 3"},
};

static const char *refusal_name(int64_t error)
{
    for (unsigned i = 0; i < sizeof refusals / sizeof *refusals; i++)
        if (refusals[i].number == error)
            return refusals[i].name;
    return "an answer that is not known";
}

static int is_same(const char *a, const char *b)
{
    while (*a && *a == *b)
        a++, b++;
    return *a == *b;
}

static int digit_of(char it)
{
    int letter = it | 32;
    return it >= '0' && it <= '9' ? it - '0' : letter >= 'a' && letter <= 'f' ? letter - 'a' + 10 : -1;
}

/* Up to 16 digits, with or without 0x before them. */
static int is_number(const char *text, uint64_t *number)
{
    if (text[0] == '0' && (text[1] | 32) == 'x')
        text += 2;
    int digits = 0;
    for (*number = 0; digit_of(text[digits]) >= 0; digits++)
        *number = *number << 4 | (uint64_t)digit_of(text[digits]);
    return digits >= 1 && digits <= 16 && !text[digits];
}

static int refused(int64_t error)
{
    put("refused, ");
    put_number(error);
    put(": ");
    put(refusal_name(error));
    put("\r\n");
    return 1;
}

static int create(const uint64_t *words)
{
    struct pmpmon_answer made = pmpmon_create(words[0], words[1], words[2], words[3], words[4], words[5]);
    if (made.error)
        return refused(made.error);
    put("enclave ");
    put_number((int64_t)made.value);
    put("\r\n");
    return 0;
}

/* What run and resume come back with. */
static int came_back(struct pmpmon_answer back)
{
    if (back.error < 0)
        return refused(back.error);
    if (back.error == 0) {
        put("exited with ");
        put_number((int64_t)back.value);
    } else {
        uint64_t cause = pmpmon_stop_cause().value;
        put("stopped by ");
        put(pmpmon_cause_name(cause));
        if (cause < CAUSE_CALL_OF_USER) {
            put(", at ");
            put_hex(pmpmon_stop_value().value);
        }
    }
    put("\r\n");
    return 0;
}

static int destroy(uint64_t id)
{
    struct pmpmon_answer done = pmpmon_destroy(id);
    if (done.error)
        return refused(done.error);
    put("destroyed\r\n");
    return 0;
}

static void put_byte(uint8_t byte)
{
    const char text[] = {"0123456789abcdef"[byte >> 4], "0123456789abcdef"[byte & 15], 0};
    put(text);
}

/* The digest by rising bytes, as sha256sum prints one: each word has its lowest byte first. */
static int measure(uint64_t id)
{
    struct pmpmon_answer word = pmpmon_measure(id, 0);
    if (word.error)
        return refused(word.error);
    for (unsigned k = 0; k < 4; k++) {
        word = pmpmon_measure(id, k);
        for (unsigned bit = 0; bit < 64; bit += 8)
            put_byte((uint8_t)(word.value >> bit));
    }
    put("\r\n");
    return 0;
}

static int peek(uint64_t at)
{
    uint64_t value = 0, cause = (uint64_t)load_at(at, &value);
    if (cause)
        put(pmpmon_cause_name(cause));
    else
        put_hex(value);
    put("\r\n");
    return 0;
}

int entry(int argc, char **argv)
{
    uint64_t words[MOST_NUMBERS] = {0};
    for (int i = 2; i < argc && i < 2 + MOST_NUMBERS; i++)
        if (!is_number(argv[i], &words[i - 2])) {
            put("no number of 64 bits: ");
            put(argv[i]);
            put("\r\n");
            return 1;
        }
    const char *word = argc > 2 ? argv[1] : "";
    if (is_same(word, "create"))
        return create(words);
    if (is_same(word, "run"))
        return came_back(pmpmon_run(words[0]));
    if (is_same(word, "resume"))
        return came_back(pmpmon_resume(words[0]));
    if (is_same(word, "destroy"))
        return destroy(words[0]);
    if (is_same(word, "measure"))
        return measure(words[0]);
    if (is_same(word, "peek"))
        return peek(words[0]);
    put("create BASE TEXT_PAGES .. | run ID | resume ID | destroy ID | measure ID | peek ADDRESS\r\n");
    return 1;
}
