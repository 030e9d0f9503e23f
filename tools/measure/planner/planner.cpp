// A straightforward planner's parts in C++, to be measured beside the proved ones.
//
// planner PART COUNT: on the pair d.pddl, p.pddl of the current folder. The parts are those of the program planner_parts.
#include "boxes.h"
#include "estimates.h"
#include <ctime>

static double seconds() {
    timespec time;
    clock_gettime(CLOCK_PROCESS_CPUTIME_ID, &time);
    return time.tv_sec + time.tv_nsec * 1e-9;
}

static uint64_t dice = 12345;

static uint64_t roll() {
    dice = dice * 6364136223846793005ull + 1442695040888963407ull;
    return dice >> 33;
}

// Applies each action in so many states of a walk, into one state or each time to a new one.
static uint64_t walk(const Task &task, long count, bool isFresh) {
    State state = task.initial, next = state;
    uint64_t sum = 0;
    vector<int> applicable;
    for (long i = 0; i < count; i++) {
        applicable.clear();
        for (size_t k = 0; k < task.actions.size(); k++) {
            Answer answer = isFresh ? applyFresh(task, task.actions[k], state).first
                                    : applyInto(task, task.actions[k], state, next);
            sum += (uint64_t)answer * (k + 1);
            if (answer == Answer::Next) applicable.push_back(k);
        }
        if (applicable.empty()) {
            state = task.initial;
            continue;
        }
        int k = applicable[roll() % applicable.size()];
        applyInto(task, task.actions[k], state, next);
        swap(state, next);
    }
    return sum;
}

enum class Way { Kept, InPlace, PassingOver };

// Estimates so many states of a walk.
static uint64_t estimates(const Task &task, long count, Way way) {
    Estimator estimator(task);
    State state = task.initial, next = state;
    uint64_t sum = 0;
    size_t actions = task.actions.size();
    for (long i = 0; i < count; i++) {
        sum = sum * 31 + (way == Way::Kept
                              ? estimator.estimate(state)
                              : estimator.estimateInPlace(state, way == Way::PassingOver));
        bool isMoved = false;
        for (size_t tries = 0; tries < actions && !isMoved; tries++)
            isMoved = applyInto(task, task.actions[roll() % actions], state, next) == Answer::Next;
        if (isMoved)
            swap(state, next);
        else
            state = task.initial;
    }
    if (way != Way::Kept)
        fprintf(stderr, "%zu rounds, %zu pairs\n", estimator.rounds, estimator.pairs);
    return sum;
}

static size_t keep(const Task &task, long count) {
    vector<State> kept;
    kept.reserve(count);
    for (long i = 0; i < count; i++) kept.push_back(task.initial);
    return kept.size();
}

int main(int count, char **words) {
    if (count != 3) {
        fprintf(stderr, "planner PART COUNT\n");
        return 1;
    }
    double start = seconds();
    string part = words[1];
    long times = atol(words[2]);
    Pair texts("d.pddl", "p.pddl");
    if (part == "pair") {
        printf("pair\n");
        return 0;
    }
    if (part == "bind") {
        for (auto &schema : texts.schemas)
            printf("%s: %zu\n", schema.name.c_str(), Binder(texts, schema).bindings().size());
        return 0;
    }
    Task task(texts);
    double made = seconds();
    if (part == "task")
        printf("%d facts %d fluents %zu actions\n", task.facts, task.fluents, task.actions.size());
    if (part == "into" || part == "fresh")
        printf("%llu\n", (unsigned long long)walk(task, times, part == "fresh"));
    const pair<const char *, Way> ways[] = {
        {"estimate", Way::Kept}, {"in_place", Way::InPlace}, {"passing_over", Way::PassingOver}};
    for (auto [name, way] : ways)
        if (part == name) printf("%llu\n", (unsigned long long)estimates(task, times, way));
    if (part == "box")
        printf("%s\n", Relaxation(task).mayGoalHold() ? "goal may hold" : "goal missed");
    if (part == "keep") printf("%zu\n", keep(task, times));
    fprintf(stderr, "task %.3f s, %s %.3f s, %zu prefixes\n", made - start, part.c_str(),
            seconds() - made, task.prefixes);
    return 0;
}
