/*
 * An enclave of a file, for programs above /dev/pmpmon. What fails says why on the standard error, with the program's name.
 *
 * The file is an ELF of examples/linux/enclaves/enclave.ld: text, data, and how many pages are shared.
 */
#ifndef ENCLAVE_FILE_H
#define ENCLAVE_FILE_H

#define PMPMON_LOADER
#include "../driver/pmpmon_ioctl.h"
#include "pmpmon_enclave.h"
#include <stdbool.h>

#define PAGE_BYTES 4096ul
#define DIGEST_BYTES 32

/* What is loaded: the private pages' bytes, how many pages each part has, and where it is entered. */
struct image {
    uint8_t *bytes;
    uint32_t text_pages, data_pages, shared_pages, entry_offset;
};

/* An enclave that is made: its open file, its shared pages, and what the driver said of it. */
struct loaded {
    int file;
    volatile struct pmpmon_page *page;
    uint8_t *buffer; /* of buffer_bytes, after the page */
    size_t buffer_bytes;
    struct pmpmon_create_args made;
    uint8_t digest[DIGEST_BYTES];
};

/* The name that messages begin with. */
extern const char *program_name;

/* A message to the standard error, and false. */
bool complain(const char *format, ...) __attribute__((format(printf, 1, 2)));

/* Reads a file; `it->bytes` is the caller's to free. */
bool read_image(const char *path, struct image *it);

/* Makes an enclave of an image, with its digest and its first shared page filled. */
bool load_image(const struct image *it, struct loaded *made);

/* What a call was refused with, in words. */
const char *refusal_name(int64_t error);

/* The digest as sha256sum prints one, of 64 digits and a zero. */
void digest_text(const uint8_t *digest, char text[2 * DIGEST_BYTES + 1]);

#endif
