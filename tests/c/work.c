#include "work.h"

/* With each way to lend the scheme and the text. */
static void run_with(struct job job, enum area_kind kind)
{
    for (int way = 0; way < ways(job.scheme) * ways(job.text); way += 1) {
        struct block scheme = lend(job.scheme, way % ways(job.scheme) == 1);
        struct block text = lend(job.text, way / ways(job.scheme) == 1);
        struct area area = new_area(kind, job.room);
        same_done(job.expected, job.call(scheme.at, scheme.len, text.at, text.len, area.at, area.len));
        end_area(area, job.written);
        give_back(scheme);
        give_back(text);
    }
}

void run(struct job job)
{
    for (int kind = 0; kind < AREA_KINDS; kind += 1) {
        if (has_kind((enum area_kind)kind, job.room)) {
            run_with(job, (enum area_kind)kind);
        }
    }
}

void refusal(work *call, struct bytes scheme, struct bytes text, size_t room, uint32_t reason)
{
    struct job job = {call, scheme, text, room, not_done(reason), TEXT("")};
    run(job);
}
