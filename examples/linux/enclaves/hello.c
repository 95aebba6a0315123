/* It says hello, keeps a secret in its data over its stops, and exits with 42 where it has it still. */
#include "pmpmon_enclave.h"

#define SECRET 0x5ec2e75ec2e7ul

static volatile uint64_t secret = SECRET, words;

/* Each word of the host's is copied once, and then looked at. */
static void count_words(volatile struct pmpmon_page *page)
{
    uint64_t bytes = page->words_bytes;
    for (uint64_t i = 0; i < bytes && i < sizeof page->words; i++)
        words += page->words[i] == 0;
}

uint64_t enclave_main(uint64_t id, volatile struct pmpmon_page *page)
{
    char text[] = "hello from enclave ?, which was given ? words\n";
    count_words(page);
    for (char *at = text; *at; at++)
        if (*at == '?')
            *at = at[1] == ',' ? (char)('0' + id % 10) : (char)('0' + words % 10);
    pmpmon_say(text);
    return secret == SECRET ? 42 : 41;
}
