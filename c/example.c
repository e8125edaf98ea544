/* Finds the strongly popular plan of each roster file named, and prints what the program crew prints: the steps, and the plan or why there is none. */
#include <crew.h>

#include <stdio.h>

static void print_pairs(const uint8_t *pair, size_t count) {
    size_t i;
    for (i = 0; i < count; i++, pair += 3) {
        printf("%d %d %d\n", pair[0], pair[1], pair[2]);
    }
}

/* a plan is a count and its pairs */
static void print_plan(const char *name, const uint8_t *plan) {
    printf("%s %d\n", name, plan[0]);
    print_pairs(plan + 1, plan[0]);
}

static void find(struct crew_desk *desk) {
    static struct crew_step diary[CREW_DIARY_RECORDS];
    static uint8_t left[CREW_LEFT_BYTES], plan[CREW_PLAN_BYTES], rival[CREW_PLAN_BYTES];
    struct crew_found found =
        crew_desk_find(desk, diary, CREW_DIARY_RECORDS, left, sizeof left, plan, sizeof plan, rival, sizeof rival);
    size_t i;
    for (i = 0; i < found.steps; i++) {
        const char *fate = diary[i].fate == CREW_FATE_FIX ? "fix" : "strike";
        printf("%s %d %d %d %d\n", fate, diary[i].surveyor, diary[i].stand, diary[i].shift, diary[i].rule);
    }
    if (found.kind == CREW_KIND_PLAN) {
        print_plan("plan", plan);
    } else if (found.kind == CREW_KIND_LEFT) {
        printf("none left %d\n", (int)found.left);
        print_pairs(left, found.left);
    } else {
        printf("none rivalled %d\n", found.vote);
        print_plan("candidate", plan);
        print_plan("rival", rival);
    }
}

int main(int count, char **names) {
    int i;
    for (i = 1; i < count; i++) {
        uint8_t file[CREW_ROSTER_BYTES + 1]; /* one more, so that a byte behind the end is seen */
        FILE *input = fopen(names[i], "rb");
        size_t length = input == NULL ? 0 : fread(file, 1, sizeof file, input);
        struct crew_desk desk = crew_open();
        uint8_t refusal = crew_desk_load_roster(&desk, file, length);
        if (input != NULL) {
            fclose(input);
        }
        if (refusal != CREW_ACCEPTED) {
            printf("refused %d %s\n", refusal, crew_group_text(crew_group(refusal)));
            fprintf(stderr, "%s: %s\n", names[i], crew_refusal_text(refusal));
        } else {
            find(&desk);
        }
    }
    return 0;
}
