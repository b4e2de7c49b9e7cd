/* Which version of Paldwosk the headers are of. paldwosk.h includes this.
 *
 *     #if PALDWOSK_VERSION < 100
 *     #error "this program needs Paldwosk 0.1.0 or newer"
 *     #endif
 */
#ifndef PALDWOSK_VERSION_H
#define PALDWOSK_VERSION_H

#define PALDWOSK_VERSION_MAJOR 0
#define PALDWOSK_VERSION_MINOR 1
#define PALDWOSK_VERSION_PATCH 0

/* The version as one number, which rises from each version to the next: 100 for 0.1.0, 10203 for 1.2.3. */
#define PALDWOSK_VERSION (PALDWOSK_VERSION_MAJOR * 10000 + PALDWOSK_VERSION_MINOR * 100 + PALDWOSK_VERSION_PATCH)

/* The version as text. */
#define PALDWOSK_VERSION_TEXT "0.1.0"

#endif
