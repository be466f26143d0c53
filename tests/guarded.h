/* Memory with an edge: an image that ends, or begins, where nothing can be
   read, and that nothing can write to. */
#ifndef GUARDED_H
#define GUARDED_H

#include <stddef.h>
#include <stdint.h>

enum { GUARDED_BYTES = 8192 }; /* room for an image */

/* Sets the pages up; ends the program where the system refuses. */
void guarded_begin(void);

/* A copy whose last byte is the last one that can be read; read-only. */
const uint8_t *guarded_to_end(const uint8_t *bytes, size_t length);

/* A copy whose first byte is the first one that can be read; read-only. */
const uint8_t *guarded_from_start(const uint8_t *bytes, size_t length);

/* Whether a read of one byte past either edge and a write inside end a
   process, as they must. */
int guarded_works(void);

#endif
