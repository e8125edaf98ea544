/* The program of desk.c, which tells a pair too many of the length of a plan: the tests must see it. */
#include <crew.h>

#define plan_length plan_length + 3 * (reply.kind == CREW_KIND_PLAN)

#include "desk.c"
