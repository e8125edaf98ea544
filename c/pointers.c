/* The program of desk.c, with every call on a desk made by the function of crew.h that takes a pointer to it. What that function leaves in the desk and
   what it returns are put together to the reply that desk.c reads; and what the desk holds is asked for each time, and held against its bytes. */
#include <crew.h>

#include <stdlib.h>
#include <string.h>

static void require(int holds) {
    if (!holds) {
        exit(3);
    }
}

/* a desk that calls have made has no bytes where it holds nothing */
static void check_held(const struct crew_desk *desk) {
    uint8_t proposal[CREW_PLAN_BYTES];
    struct crew_outcome written = crew_desk_write_proposal(desk, proposal, sizeof proposal);
    uint8_t holds = crew_desk_holds(desk);
    require((holds >= CREW_HOLDS_ROSTER) == (desk->roster_len > 0));
    require((holds >= CREW_HOLDS_PLAN) == (desk->plan_len > 0));
    require((holds >= CREW_HOLDS_PROPOSAL) == (desk->proposal_len > 0));
    require((holds == CREW_HOLDS_PROPOSAL) == (written.refusal == CREW_ACCEPTED));
    require(written.length == desk->proposal_len);
    require(memcmp(proposal, desk->proposal, written.length) == 0);
}

#define REPLY(kind, part, type)                                              \
    static struct crew_desk_##kind with_##kind(type part, const struct crew_desk *desk) { \
        struct crew_desk_##kind reply;                                       \
        check_held(desk);                                                    \
        reply.desk = *desk;                                                  \
        reply.part = part;                                                   \
        return reply;                                                        \
    }

REPLY(loaded, refusal, uint8_t)
REPLY(proposed, proposed, struct crew_proposed)
REPLY(written, outcome, struct crew_outcome)
REPLY(judged, judged, struct crew_judged)
REPLY(compared, compared, struct crew_compared)
REPLY(blocker, blocker, struct crew_blocker)
REPLY(least, least, struct crew_least)
REPLY(holds, holds, uint8_t)

static struct crew_desk_found with_found(struct crew_found found, const struct crew_desk *desk) {
    struct crew_desk_found reply;
    check_held(desk);
    require((found.plan_length > 0) == (found.kind == CREW_KIND_PLAN || found.kind == CREW_KIND_RIVALLED));
    require((found.rival_length > 0) == (found.kind == CREW_KIND_RIVALLED));
    require(found.plan_length <= CREW_PLAN_BYTES && found.rival_length <= CREW_PLAN_BYTES);
    reply.desk = *desk;
    reply.kind = found.kind;
    reply.refusal = found.refusal;
    reply.vote = found.vote;
    reply.steps = found.steps;
    reply.left = found.left;
    reply.plan_length = found.plan_length;
    reply.rival_length = found.rival_length;
    return reply;
}

/* the desk is copied into the reply behind the call, since an argument is evaluated before the body of the function that takes it */
#define crew_load_roster(desk, ...) with_loaded(crew_desk_load_roster(&(desk), __VA_ARGS__), &(desk))
#define crew_load_plan(desk, ...) with_loaded(crew_desk_load_plan(&(desk), __VA_ARGS__), &(desk))
#define crew_propose(desk, ...) with_proposed(crew_desk_propose(&(desk), __VA_ARGS__), &(desk))
#define crew_commit(desk) with_loaded(crew_desk_commit(&(desk)), &(desk))
#define crew_write_roster(desk, ...) with_written(crew_desk_write_roster(&(desk), __VA_ARGS__), &(desk))
#define crew_write_plan(desk, ...) with_written(crew_desk_write_plan(&(desk), __VA_ARGS__), &(desk))
#define crew_write_proposal(desk, ...) with_written(crew_desk_write_proposal(&(desk), __VA_ARGS__), &(desk))
#define crew_holds(desk) with_holds(crew_desk_holds(&(desk)), &(desk))
#define crew_spread(desk, ...) with_written(crew_desk_spread(&(desk), __VA_ARGS__), &(desk))
#define crew_plan_to_new(desk, ...) with_written(crew_desk_plan_to_new(&(desk), __VA_ARGS__), &(desk))
#define crew_plan_to_old(desk, ...) with_written(crew_desk_plan_to_old(&(desk), __VA_ARGS__), &(desk))
#define crew_judge(desk, ...) with_judged(crew_desk_judge(&(desk), __VA_ARGS__), &(desk))
#define crew_compare(desk, ...) with_compared(crew_desk_compare(&(desk), __VA_ARGS__), &(desk))
#define crew_least(desk, ...) with_least(crew_desk_least(&(desk), __VA_ARGS__), &(desk))
#define crew_blocking(desk) with_blocker(crew_desk_blocking(&(desk)), &(desk))
#define crew_find(desk, ...) with_found(crew_desk_find(&(desk), __VA_ARGS__), &(desk))
#define crew_join(desk, ...) with_found(crew_desk_join(&(desk), __VA_ARGS__), &(desk))
#define crew_leave(desk, ...) with_found(crew_desk_leave(&(desk), __VA_ARGS__), &(desk))

#include "desk.c"
