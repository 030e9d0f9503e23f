// The estimate of a state: the least solution of the equations between actions and atoms, by rounds over all of them.
#pragma once
#include "steps.h"

const uint32_t FAR = 1000000000;

// A comparison as a sum over fluents that is to be at least 0, above it, or 0.
struct Form {
    Dec constant;
    vector<pair<int, Dec>> terms;
};

inline Form sumOf(const Form &a, const Form &b, bool isDifference) {
    auto signedOf = [&](Dec d) { return isDifference ? minusOf(d) : d; };
    Form sum;
    sum.constant = add(a.constant, signedOf(b.constant));
    size_t i = 0, j = 0;
    while (i < a.terms.size() || j < b.terms.size()) {
        if (j == b.terms.size() || (i < a.terms.size() && a.terms[i].first < b.terms[j].first)) {
            sum.terms.push_back(a.terms[i++]);
        } else if (i == a.terms.size() || b.terms[j].first < a.terms[i].first) {
            sum.terms.push_back({b.terms[j].first, signedOf(b.terms[j].second)});
            j++;
        } else {
            Dec both = add(a.terms[i].second, signedOf(b.terms[j].second));
            if (both.n != 0) sum.terms.push_back({a.terms[i].first, both});
            i++;
            j++;
        }
    }
    return sum;
}

// The expression as a linear form, if it is one.
inline bool isLinear(const Task &task, int node, Form &form) {
    const Node &n = task.nodes[node];
    form = {};
    if (n.kind == Node::Const) {
        form.constant = trim(n.value);
        return true;
    }
    if (n.kind == Node::Read) {
        form.terms = {{n.fluent, Dec{1, 0}}};
        return true;
    }
    Form left, right;
    if (!isLinear(task, n.left, left) || !isLinear(task, n.right, right)) return false;
    if (n.kind != Node::Mul) {
        form = sumOf(left, right, n.kind == Node::Sub);
        return true;
    }
    if (!left.terms.empty() && !right.terms.empty()) return false;
    if (!left.terms.empty()) swap(left, right);
    form.constant = multiply(left.constant, right.constant);
    for (auto &[fluent, factor] : right.terms) {
        Dec product = multiply(left.constant, factor);
        if (product.n != 0) form.terms.push_back({fluent, product});
    }
    return true;
}

class Estimator {
  public:
    explicit Estimator(const Task &task) : task(task) {
        adders.resize(task.facts);
        deleters.resize(task.facts);
        changers.resize(task.fluents);
        for (size_t k = 0; k < task.actions.size(); k++) {
            for (int fact : task.actions[k].adds) adders[fact].push_back(k);
            for (int fact : task.actions[k].deletes) deleters[fact].push_back(k);
            for (auto &change : task.actions[k].changes) changers[change.fluent].push_back(k);
        }
        for (auto &action : task.actions) preconditions.push_back(treeOf(action.pre));
        goal = treeOf(task.goal);
        atomValues.resize(atoms.size());
        isTrue.resize(atoms.size());
        help.resize(atoms.size());
        actionValues.resize(task.actions.size());
    }

    uint32_t estimate(const State &state) {
        for (size_t i = 0; i < atoms.size(); i++) findHelp(i, state);
        for (bool isChanged = true; isChanged;) isChanged = round();
        return valueOf(goal);
    }

    // The same by rounds in place over the actions, as the proved one goes, but with gains that are kept. An atom and an
    // action that may help it count as a pair where they are looked at.
    uint32_t estimateInPlace(const State &state, bool passesOver) {
        fill(actionValues.begin(), actionValues.end(), FAR);
        for (bool isLowered = true; isLowered; rounds++) {
            isLowered = false;
            for (size_t k = 0; k < actionValues.size(); k++) {
                if (actionValues[k] == 0) continue;
                uint32_t value = valueIn(preconditions[k], state, passesOver);
                if (value >= actionValues[k]) continue;
                actionValues[k] = value;
                isLowered = true;
            }
        }
        return valueIn(goal, state, passesOver);
    }

    size_t rounds = 0, pairs = 0;

  private:
    struct AtomInfo {
        const GroundCond *cond;
        bool hasForm = false;
        Form form;
        vector<pair<int, Dec>> gains; // actions that move the form by a constant
        vector<int> others;           // actions that change it otherwise
        vector<int> helpers;          // all actions that change what it reads
    };

    // A condition over the numbers of its atoms.
    struct CondTree {
        GroundCond::Kind kind;
        int atom = -1;
        vector<int> parts;
    };

    struct Help {
        uint32_t repetitions;
        int action;
    };

    const Task &task;
    vector<vector<int>> adders, deleters, changers;
    vector<AtomInfo> atoms;
    vector<CondTree> trees;
    vector<int> preconditions;
    int goal;
    vector<uint32_t> atomValues, actionValues;
    vector<char> isTrue;
    vector<vector<Help>> help;

    void findReads(int node, vector<char> &reads) const {
        const Node &n = task.nodes[node];
        if (n.kind == Node::Read)
            reads[n.fluent] = 1;
        else if (n.kind != Node::Const) {
            findReads(n.left, reads);
            findReads(n.right, reads);
        }
    }

    vector<int> helpersOf(const GroundCond &cond) const {
        vector<char> reads(task.fluents, 0);
        findReads(cond.left, reads);
        findReads(cond.right, reads);
        vector<int> helpers;
        for (int fluent = 0; fluent < task.fluents; fluent++)
            if (reads[fluent])
                helpers.insert(helpers.end(), changers[fluent].begin(), changers[fluent].end());
        sort(helpers.begin(), helpers.end());
        helpers.erase(unique(helpers.begin(), helpers.end()), helpers.end());
        return helpers;
    }

    void findGains(AtomInfo &atom) const {
        for (int k : atom.helpers) {
            bool isConstant = true, isTouched = false;
            Dec gain;
            for (auto &[fluent, factor] : atom.form.terms)
                for (auto &change : task.actions[k].changes) {
                    if (change.fluent != fluent) continue;
                    isTouched = true;
                    const Node &by = task.nodes[change.by];
                    if (change.isAssignment || by.kind != Node::Const)
                        isConstant = false;
                    else
                        gain = add(gain, multiply(factor, by.value));
                }
            if (!isTouched) continue;
            if (!isConstant)
                atom.others.push_back(k);
            else if (gain.n > 0 || (gain.n != 0 && atom.cond->rel == Rel::Equal))
                atom.gains.push_back({k, gain});
        }
    }

    AtomInfo atomOf(const GroundCond &cond) const {
        AtomInfo atom;
        atom.cond = &cond;
        if (cond.kind == GroundCond::Fact) {
            atom.helpers = (cond.truth ? adders : deleters)[cond.fact];
            return atom;
        }
        atom.helpers = helpersOf(cond);
        Form left, right;
        atom.hasForm = isLinear(task, cond.left, left) && isLinear(task, cond.right, right);
        if (!atom.hasForm) return atom;
        bool isTurned = cond.rel == Rel::Less || cond.rel == Rel::LessEqual;
        atom.form = isTurned ? sumOf(right, left, true) : sumOf(left, right, true);
        findGains(atom);
        return atom;
    }

    int treeOf(const GroundCond &cond) {
        CondTree tree;
        tree.kind = cond.kind;
        if (cond.kind == GroundCond::Fact || cond.kind == GroundCond::Compare) {
            tree.atom = atoms.size();
            atoms.push_back(atomOf(cond));
        }
        for (auto &part : cond.parts) tree.parts.push_back(treeOf(part));
        trees.push_back(tree);
        return trees.size() - 1;
    }

    // How often a gain is needed until the form is as it should be; 0 where it never will be.
    static uint32_t repetitions(Rel rel, Dec value, Dec gain) {
        int p = max(value.p, gain.p);
        i128 l = numberAt(value, p), g = numberAt(gain, p), count;
        if (rel == Rel::Equal) {
            if ((g > 0) == (l > 0)) return 0;
            i128 way = l < 0 ? -l : l, step = g < 0 ? -g : g;
            count = (way + step - 1) / step;
        } else if (rel == Rel::Less || rel == Rel::Greater) {
            count = -l / g + 1;
        } else {
            count = (-l + g - 1) / g;
        }
        return count < 1 ? 1 : count > FAR ? FAR : (uint32_t)count;
    }

    void findHelp(size_t i, const State &state) {
        AtomInfo &atom = atoms[i];
        help[i].clear();
        isOver = false;
        isTrue[i] = holds(task, *atom.cond, state) && !isOver;
        atomValues[i] = isTrue[i] ? 0 : FAR;
        if (isTrue[i]) return;
        if (isOver || !atom.hasForm) {
            for (int k : atom.helpers) help[i].push_back({1, k});
            return;
        }
        Dec value = formValue(atom.form, state);
        for (auto &[k, gain] : atom.gains) {
            uint32_t count = repetitions(atom.cond->rel, value, gain);
            if (count) help[i].push_back({count, k});
        }
        for (int k : atom.others) help[i].push_back({1, k});
    }

    Dec formValue(const Form &form, const State &state) const {
        Dec value = form.constant;
        for (auto &[fluent, factor] : form.terms)
            value =
                add(value, multiply(factor, trim({state.values[fluent], task.places[fluent]})));
        return value;
    }

    // ---- rounds in place

    uint32_t atomValue(const AtomInfo &atom, const State &state, bool passesOver) {
        isOver = false;
        if (holds(task, *atom.cond, state) && !isOver) return 0;
        uint32_t least = FAR;
        auto reach = [&](uint32_t count, int k) {
            if (count) least = min<uint64_t>(least, (uint64_t)count + actionValues[k]);
        };
        auto isPassedOver = [&](int k) {
            if (passesOver && actionValues[k] >= least) return true;
            pairs++;
            return false;
        };
        if (isOver || !atom.hasForm) {
            for (int k : atom.helpers)
                if (!isPassedOver(k)) reach(1, k);
            return least;
        }
        Dec value = formValue(atom.form, state);
        for (auto &[k, gain] : atom.gains)
            if (!isPassedOver(k)) reach(repetitions(atom.cond->rel, value, gain), k);
        for (int k : atom.others)
            if (!isPassedOver(k)) reach(1, k);
        return least;
    }

    uint32_t valueIn(int number, const State &state, bool passesOver) {
        const CondTree &tree = trees[number];
        if (tree.kind == GroundCond::True) return 0;
        if (tree.kind == GroundCond::False) return FAR;
        if (tree.atom >= 0) return atomValue(atoms[tree.atom], state, passesOver);
        uint64_t sum = 0;
        uint32_t least = FAR;
        for (int part : tree.parts) {
            uint32_t value = valueIn(part, state, passesOver);
            sum += value;
            least = min(least, value);
        }
        return tree.kind == GroundCond::And ? min<uint64_t>(sum, FAR) : least;
    }

    uint32_t valueOf(int number) const {
        const CondTree &tree = trees[number];
        switch (tree.kind) {
        case GroundCond::True: return 0;
        case GroundCond::False: return FAR;
        case GroundCond::And: {
            uint64_t sum = 0;
            for (int part : tree.parts) sum += valueOf(part);
            return sum > FAR ? FAR : sum;
        }
        case GroundCond::Or: {
            uint32_t least = FAR;
            for (int part : tree.parts) least = min(least, valueOf(part));
            return least;
        }
        default: return atomValues[tree.atom];
        }
    }

    bool round() {
        bool isChanged = false;
        for (size_t k = 0; k < actionValues.size(); k++) actionValues[k] = valueOf(preconditions[k]);
        for (size_t i = 0; i < atoms.size(); i++) {
            if (isTrue[i]) continue;
            uint32_t least = FAR;
            for (auto [repetitions, action] : help[i]) {
                uint64_t value = (uint64_t)repetitions + actionValues[action];
                if (value < least) least = value;
            }
            if (least == atomValues[i]) continue;
            atomValues[i] = least;
            isChanged = true;
        }
        return isChanged;
    }
};
