// The least closed box above the initial state, by marked actions, lowest number first. An increase opens an end
// without a cap, so the box is the least one for assignments of constants alone.
#pragma once
#include "steps.h"

struct Interval {
    bool isLowInfinite, isHighInfinite;
    i128 low, high;
};

class Relaxation {
  public:
    explicit Relaxation(const Task &task) : task(task) {
        for (i128 value : task.initial.values) values.push_back(point(value));
        for (int fact = 0; fact < task.facts; fact++)
            truths.push_back(task.initial.fact(fact) ? TRUE : FALSE);
        readersOfFluent.resize(task.fluents);
        readersOfFact.resize(task.facts);
        for (size_t k = 0; k < task.actions.size(); k++) {
            addReads(task.actions[k].pre, k);
            for (auto &change : task.actions[k].changes) addReads(change.by, k);
        }
        isMarked.assign(task.actions.size(), 1);
        while (from < task.actions.size()) {
            if (isMarked[from])
                widen(from);
            else
                from++;
        }
    }

    bool mayGoalHold() const { return mayHold(task.goal); }

  private:
    enum : char { TRUE = 1, FALSE = 2 };

    const Task &task;
    vector<Interval> values;
    vector<char> truths;
    vector<vector<int>> readersOfFluent, readersOfFact;
    vector<char> isMarked;
    size_t from = 0; // no action below it is marked

    static void addReader(vector<int> &readers, int action) {
        if (readers.empty() || readers.back() != action) readers.push_back(action);
    }

    void addReads(int node, int action) {
        const Node &n = task.nodes[node];
        if (n.kind == Node::Read) addReader(readersOfFluent[n.fluent], action);
        if (n.kind == Node::Read || n.kind == Node::Const) return;
        addReads(n.left, action);
        addReads(n.right, action);
    }

    void addReads(const GroundCond &cond, int action) {
        if (cond.kind == GroundCond::Fact) addReader(readersOfFact[cond.fact], action);
        if (cond.kind == GroundCond::Compare) {
            addReads(cond.left, action);
            addReads(cond.right, action);
        }
        for (auto &part : cond.parts) addReads(part, action);
    }

    static Interval point(i128 n) { return {false, false, n, n}; }

    static Interval scaled(Interval a, i128 factor) {
        return {a.isLowInfinite, a.isHighInfinite, a.low * factor, a.high * factor};
    }

    Interval valueOf(int node) const {
        const Node &n = task.nodes[node];
        if (n.kind == Node::Const) return point(n.value.n);
        if (n.kind == Node::Read) return values[n.fluent];
        Interval a = valueOf(n.left), b = valueOf(n.right);
        if (n.kind == Node::Mul) {
            if (a.isLowInfinite || a.isHighInfinite || b.isLowInfinite || b.isHighInfinite)
                return {true, true, 0, 0};
            auto [least, most] =
                minmax({a.low * b.low, a.low * b.high, a.high * b.low, a.high * b.high});
            return {false, false, least, most};
        }
        a = scaled(a, n.leftFactor);
        b = scaled(b, n.rightFactor);
        if (n.kind == Node::Sub) b = {b.isHighInfinite, b.isLowInfinite, -b.high, -b.low};
        return {a.isLowInfinite || b.isLowInfinite, a.isHighInfinite || b.isHighInfinite,
                a.low + b.low, a.high + b.high};
    }

    static bool mayBeLess(const Interval &a, const Interval &b, bool orEqual) {
        return a.isLowInfinite || b.isHighInfinite || a.low < b.high ||
               (orEqual && a.low == b.high);
    }

    bool mayHold(const GroundCond &cond) const {
        switch (cond.kind) {
        case GroundCond::True: return true;
        case GroundCond::False: return false;
        case GroundCond::Fact: return truths[cond.fact] & (cond.truth ? TRUE : FALSE);
        case GroundCond::And:
            for (auto &part : cond.parts)
                if (!mayHold(part)) return false;
            return true;
        case GroundCond::Or:
            for (auto &part : cond.parts)
                if (mayHold(part)) return true;
            return false;
        case GroundCond::Compare: break;
        }
        Interval a = scaled(valueOf(cond.left), cond.leftFactor);
        Interval b = scaled(valueOf(cond.right), cond.rightFactor);
        switch (cond.rel) {
        case Rel::Less: return mayBeLess(a, b, false);
        case Rel::LessEqual: return mayBeLess(a, b, true);
        case Rel::Equal: return mayBeLess(a, b, true) && mayBeLess(b, a, true);
        case Rel::GreaterEqual: return mayBeLess(b, a, true);
        case Rel::Greater: return mayBeLess(b, a, false);
        }
        return false;
    }

    void mark(const vector<int> &readers) {
        for (int k : readers) {
            isMarked[k] = 1;
            from = min(from, (size_t)k);
        }
    }

    void widenValue(const Change &change) {
        int shift = task.places[change.fluent] - task.nodes[change.by].places;
        Interval by = scaled(valueOf(change.by), tenTo(shift));
        Interval &value = values[change.fluent];
        bool isChanged = false;
        if (change.isAssignment) {
            if (!value.isLowInfinite && (by.isLowInfinite || by.low < value.low)) {
                value.isLowInfinite = by.isLowInfinite;
                value.low = by.low;
                isChanged = true;
            }
            if (!value.isHighInfinite && (by.isHighInfinite || by.high > value.high)) {
                value.isHighInfinite = by.isHighInfinite;
                value.high = by.high;
                isChanged = true;
            }
        } else {
            if (!value.isHighInfinite && (by.isHighInfinite || by.high > 0))
                value.isHighInfinite = isChanged = true;
            if (!value.isLowInfinite && (by.isLowInfinite || by.low < 0))
                value.isLowInfinite = isChanged = true;
        }
        if (isChanged) mark(readersOfFluent[change.fluent]);
    }

    void widenTruth(int fact, char truth) {
        if (truths[fact] & truth) return;
        truths[fact] |= truth;
        mark(readersOfFact[fact]);
    }

    void widen(size_t k) {
        isMarked[k] = 0;
        const GroundAction &action = task.actions[k];
        if (!mayHold(action.pre)) return;
        for (auto &change : action.changes) widenValue(change);
        for (int fact : action.adds) widenTruth(fact, TRUE);
        for (int fact : action.deletes) widenTruth(fact, FALSE);
    }
};
