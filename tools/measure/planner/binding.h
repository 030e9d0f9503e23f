// The bindings of an action's parameters that its static conditions leave.
#pragma once
#include "pair.h"

// A conjunct that no action changes, and how many parameters are to be bound before it can be tested.
struct Static {
    bool isTrue;
    bool isSame;
    Atom atom;
    Arg left, right;
    int level = 0;
};

using Binding = vector<int>;

class Binder {
  public:
    Binder(const Pair &pair, const Schema &schema)
        : pair(pair), count(schema.types.size()), tests(count + 1), fitting(count), index(count),
          indexedBy(count, -1), objects(count, 0) {
        findTests(schema.pre, true);
        for (int i = 0; i < count; i++)
            for (size_t o = 0; o < pair.namesOfObjects.size(); o++)
                if (pair.isWithin(pair.typesOfObjects[o], schema.types[i])) fitting[i].push_back(o);
        for (int i = 0; i < count; i++) makeIndex(i);
    }

    vector<Binding> bindings() {
        objects.assign(count, 0);
        if (passes(0)) bindFrom(0);
        return move(found);
    }

    // How often a parameter was bound with success.
    size_t prefixes = 0;

  private:
    const Pair &pair;
    int count;
    vector<vector<Static>> tests;
    vector<vector<int>> fitting;
    // Where a fact names a parameter and one earlier one: by that one's object, the objects that fit.
    vector<unordered_map<int, vector<int>>> index;
    vector<int> indexedBy;
    Binding objects;
    vector<Binding> found;

    void addTest(Static test, const vector<Arg> &args) {
        for (Arg arg : args)
            if (arg.isParameter) test.level = max(test.level, arg.number + 1);
        tests[test.level].push_back(test);
    }

    void findTests(const Cond &cond, bool isTrue) {
        switch (cond.kind) {
        case Cond::And:
        case Cond::Or:
            if ((cond.kind == Cond::And) == isTrue)
                for (auto &part : cond.parts) findTests(part, isTrue);
            break;
        case Cond::Not: findTests(cond.parts[0], !isTrue); break;
        case Cond::Fact:
            if (pair.isFixedPredicate[cond.atom.symbol])
                addTest({isTrue, false, cond.atom, {}, {}}, cond.atom.args);
            break;
        case Cond::Same:
            addTest({isTrue, true, {}, cond.left, cond.right}, {cond.left, cond.right});
            break;
        default: break;
        }
    }

    bool passes(const Static &test) const {
        const int *os = objects.data();
        if (test.isSame)
            return (objectOf(test.left, os) == objectOf(test.right, os)) == test.isTrue;
        return (pair.facts.count(codeOf(test.atom, os)) > 0) == test.isTrue;
    }

    bool passes(int level) const {
        for (auto &test : tests[level])
            if (!passes(test)) return false;
        return true;
    }

    // The one other parameter of a fact, or -1.
    static int otherParameter(const Static &test, int parameter) {
        int other = -1;
        for (Arg arg : test.atom.args) {
            if (!arg.isParameter || arg.number == parameter) continue;
            if (other >= 0 && other != arg.number) return -1;
            other = arg.number;
        }
        return other;
    }

    void makeIndex(int parameter) {
        for (auto &test : tests[parameter + 1]) {
            if (test.isSame || !test.isTrue) continue;
            int other = otherParameter(test, parameter);
            if (other < 0) continue;
            indexedBy[parameter] = other;
            for (int o : fitting[other]) {
                objects[other] = o;
                vector<int> &matches = index[parameter][o];
                for (int object : fitting[parameter]) {
                    objects[parameter] = object;
                    if (passes(test)) matches.push_back(object);
                }
            }
            return;
        }
    }

    void bindFrom(int parameter) {
        if (parameter == count) {
            found.push_back(objects);
            return;
        }
        int by = indexedBy[parameter];
        for (int object : by < 0 ? fitting[parameter] : index[parameter][objects[by]]) {
            objects[parameter] = object;
            if (!passes(parameter + 1)) continue;
            prefixes++;
            bindFrom(parameter + 1);
        }
    }
};
