// Steps: what an action makes of a state. Numbers of 128 bits, with a test for overflow at each operation.
#pragma once
#include "task.h"

enum class Answer { Blocked, Over, Next };

// Whether a value has left the range since it was set to false.
inline bool isOver = false;

inline i128 times(i128 a, i128 factor) {
    i128 result;
    if (factor == 1) return a;
    if (__builtin_mul_overflow(a, factor, &result)) isOver = true;
    return result;
}

inline i128 valueOf(const Task &task, int node, const State &state) {
    const Node &n = task.nodes[node];
    if (n.kind == Node::Const) return n.value.n;
    if (n.kind == Node::Read) return state.values[n.fluent];
    i128 a = valueOf(task, n.left, state), b = valueOf(task, n.right, state), result;
    if (n.kind == Node::Mul) {
        if (__builtin_mul_overflow(a, b, &result)) isOver = true;
        return result;
    }
    a = times(a, n.leftFactor);
    b = times(b, n.rightFactor);
    if (n.kind == Node::Add ? __builtin_add_overflow(a, b, &result)
                            : __builtin_sub_overflow(a, b, &result))
        isOver = true;
    return result;
}

// Each comparison is evaluated, also where the truth is known before.
inline bool holds(const Task &task, const GroundCond &cond, const State &state) {
    switch (cond.kind) {
    case GroundCond::True: return true;
    case GroundCond::False: return false;
    case GroundCond::Fact: return state.fact(cond.fact) == cond.truth;
    case GroundCond::And: {
        bool all = true;
        for (auto &part : cond.parts)
            if (!holds(task, part, state)) all = false;
        return all;
    }
    case GroundCond::Or: {
        bool any = false;
        for (auto &part : cond.parts)
            if (holds(task, part, state)) any = true;
        return any;
    }
    case GroundCond::Compare: break;
    }
    i128 a = times(valueOf(task, cond.left, state), cond.leftFactor);
    i128 b = times(valueOf(task, cond.right, state), cond.rightFactor);
    return stands(cond.rel, a, b);
}

inline bool factsHold(const GroundCond &pre, const State &state) {
    if (pre.kind == GroundCond::Fact) return state.fact(pre.fact) == pre.truth;
    if (pre.kind != GroundCond::And) return true;
    for (auto &part : pre.parts)
        if (part.kind == GroundCond::Fact && state.fact(part.fact) != part.truth) return false;
    return true;
}

inline Answer guard(const Task &task, const GroundAction &action, const State &state) {
    if (!factsHold(action.pre, state)) return Answer::Blocked;
    isOver = false;
    bool isTrue = holds(task, action.pre, state);
    if (isOver) return Answer::Over;
    return isTrue ? Answer::Next : Answer::Blocked;
}

// Writes the effects over a copy of the state.
inline Answer change(const Task &task, const GroundAction &action, const State &state, State &next) {
    for (auto &change : action.changes) {
        i128 value = valueOf(task, change.by, state);
        int shift = task.places[change.fluent] - task.nodes[change.by].places;
        if (shift) value = times(value, tenTo(shift));
        if (!change.isAssignment &&
            __builtin_add_overflow(value, state.values[change.fluent], &value))
            isOver = true;
        next.values[change.fluent] = value;
    }
    if (isOver) return Answer::Over;
    for (int fact : action.deletes) next.facts[fact >> 6] &= ~(1ull << (fact & 63));
    for (int fact : action.adds) next.facts[fact >> 6] |= 1ull << (fact & 63);
    return Answer::Next;
}

// Into a state of the caller's, whose memory is used again.
inline Answer applyInto(const Task &task, const GroundAction &action, const State &state,
                        State &next) {
    Answer answer = guard(task, action, state);
    if (answer != Answer::Next) return answer;
    next.facts = state.facts;
    next.values = state.values;
    return change(task, action, state, next);
}

// To a new state, which takes memory of its own.
inline pair<Answer, State> applyFresh(const Task &task, const GroundAction &action,
                                      const State &state) {
    Answer answer = guard(task, action, state);
    if (answer != Answer::Next) return {answer, {}};
    State next = state;
    answer = change(task, action, state, next);
    return {answer, move(next)};
}
