/* The check of a stored bundle of packed token trees. Link with libbundle.a, which tools/static-library bundle writes (x86-64). */
#ifndef TT_CHECK_H
#define TT_CHECK_H

#include <stddef.h>
#include <stdint.h>

#ifdef __cplusplus
extern "C" {
#endif

/* 0 if the bundle passes, else the number of the refusal: 1, 2, 3, 4, 7, 8 or 9. The bytes are only read, and only those
 * from bytes on, len in number. With len 0 nothing is read. Nothing is kept between calls: threads may call it at once. */
uint32_t tt_check_bundle(const uint8_t *bytes, size_t len);

#ifdef __cplusplus
}
#endif

#endif
