/* For callers that load libtuyenlomac.so and cannot include a header, such as Python: the functions that are inline in the header, under names of
   their own, and the size of each struct that a caller lends. library/shared links this file into the shared library, and nothing else needs it.
   The shared library also has the archive's own functions, under their names in the header, which describes each. */
#include "tuyenlomac.h"

/* A desk lent whole, as to tuyenlomac_locks_start and the other inline functions of the header. */

uint32_t tuyenlomac_shared_locks_start(struct tuyenlomac_locks *desk, uint32_t first) { return tuyenlomac_locks_start(desk, first); }

struct tuyenlomac_answer tuyenlomac_shared_locks_step(struct tuyenlomac_locks *desk, uint8_t kind, uint32_t job, uint32_t cell,
                                                      struct tuyenlomac_wakes *wakes) {
    return tuyenlomac_locks_step(desk, kind, job, cell, wakes);
}

struct tuyenlomac_chain tuyenlomac_shared_locks_chain(const struct tuyenlomac_locks *desk, uint32_t job, uint32_t *list, size_t length) {
    return tuyenlomac_locks_chain(desk, job, list, length);
}

uint32_t tuyenlomac_shared_stamps_start(struct tuyenlomac_stamps *desk, uint32_t first) { return tuyenlomac_stamps_start(desk, first); }

struct tuyenlomac_answer tuyenlomac_shared_stamps_step(struct tuyenlomac_stamps *desk, uint8_t kind, uint32_t job, uint32_t cell) {
    return tuyenlomac_stamps_step(desk, kind, job, cell);
}

/* How many bytes a caller lends for each struct, zeroed, at an address that is a multiple of its alignment. */

size_t tuyenlomac_shared_locks_size(void) { return sizeof(struct tuyenlomac_locks); }
size_t tuyenlomac_shared_locks_alignment(void) { return _Alignof(struct tuyenlomac_locks); }
size_t tuyenlomac_shared_stamps_size(void) { return sizeof(struct tuyenlomac_stamps); }
size_t tuyenlomac_shared_stamps_alignment(void) { return _Alignof(struct tuyenlomac_stamps); }
size_t tuyenlomac_shared_wakes_size(void) { return sizeof(struct tuyenlomac_wakes); }
size_t tuyenlomac_shared_wakes_alignment(void) { return _Alignof(struct tuyenlomac_wakes); }
