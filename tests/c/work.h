/* A completion or a listing in each way: what is written, and that no other byte is. */
#ifndef WORK_H
#define WORK_H

#include "field.h"

/* Both take a scheme, a text and an area. */
typedef struct partyid_done work(const void *scheme, size_t scheme_len, const void *text, size_t text_len, void *out, size_t out_len);

struct job {
    work *call;
    struct bytes scheme;
    struct bytes text;
    size_t room;
    struct partyid_done expected;
    struct bytes written;
};

void run(struct job job);

/* A refusal, which changes no byte of an area. */
void refusal(work *call, struct bytes scheme, struct bytes text, size_t room, uint32_t reason);

#endif
