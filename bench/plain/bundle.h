/* The format of a bundle. */
#ifndef BUNDLE_H
#define BUNDLE_H

#include <stddef.h>
#include <stdint.h>

enum { LISTS = 6048, BYTE_MATRICES = 160, COLUMN_MATRICES = 36, SECTIONS = 5 };

/* The starts of the five sections: 0, or the refusal for cause 2 or 3. */
uint64_t find_sections(const uint8_t *bundle, size_t len, const uint8_t *sections[SECTIONS]);

#endif
