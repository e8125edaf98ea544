/* How deep the calls go into the stack that go deepest: stack ROSTER. The room below is painted before a call, and what is no longer painted behind it
   was used, the call's arguments and its answer included. Prints the most bytes of a find, a join and a leaving on that roster. */
#include <crew.h>

#include <stdio.h>

enum { ROOM = 1 << 20, PAINT = 0xA5 };

static struct crew_desk desk;
static struct crew_step diary[CREW_DIARY_RECORDS];
static uint8_t left[CREW_LEFT_BYTES], plan[CREW_PLAN_BYTES], rival[CREW_PLAN_BYTES];

/* both have their room where the calls have theirs, since the same function calls them all */
static __attribute__((noinline)) void paint(void) {
    volatile uint8_t room[ROOM];
    size_t i;
    for (i = 0; i < ROOM; i++) {
        room[i] = PAINT;
    }
    (void)room;
}

static __attribute__((noinline)) size_t used(void) {
    volatile uint8_t room[ROOM];
    size_t i = 0;
    /* the address is taken, so that the room is memory whose bytes are those that are there */
    __asm__ volatile("" : : "r"(room) : "memory");
    while (i < ROOM && room[i] == PAINT) {
        i++;
    }
    return ROOM - i;
}

static __attribute__((noinline)) void find(void) {
    (void)crew_find(desk, diary, CREW_DIARY_RECORDS, left, sizeof left, plan, sizeof plan, rival, sizeof rival);
}

static __attribute__((noinline)) void leave(void) {
    struct crew_desk_found reply =
        crew_leave(desk, 1, diary, CREW_DIARY_RECORDS, left, sizeof left, plan, sizeof plan, rival, sizeof rival);
    desk = reply.desk;
}

static __attribute__((noinline)) void join(void) {
    static const uint8_t list[] = {3, 1, 1, 2, 1, 3, 1};
    struct crew_desk_found reply =
        crew_join(desk, 1, list, sizeof list, diary, CREW_DIARY_RECORDS, left, sizeof left, plan, sizeof plan, rival, sizeof rival);
    desk = reply.desk;
}

static size_t depth(void (*call)(void)) {
    paint();
    call();
    return used();
}

int main(int count, char **names) {
    static void (*const calls[])(void) = {find, join, leave};
    static uint8_t file[CREW_ROSTER_BYTES + 1];
    FILE *input = count == 2 ? fopen(names[1], "rb") : NULL;
    size_t length = input == NULL ? 0 : fread(file, 1, sizeof file, input), most = 0, i;
    desk = crew_open();
    if (crew_desk_load_roster(&desk, file, length) != CREW_ACCEPTED) {
        return 1;
    }
    for (i = 0; i < sizeof calls / sizeof calls[0]; i++) {
        size_t bytes = depth(calls[i]);
        most = bytes > most ? bytes : most;
    }
    printf("%d\n", (int)most);
    return 0;
}
