// A ground task: what no action changes is folded in, facts and fluents have numbers.
#pragma once
#include "binding.h"

// A node of the expressions, which lie in one vector.
struct Node {
    enum Kind { Const, Read, Add, Sub, Mul } kind;
    int fluent = 0;
    Dec value;
    int left = -1, right = -1;
    int places = 0;
    // by what the sides' numbers are multiplied, so that both have the node's places
    i128 leftFactor = 1, rightFactor = 1;
};

struct GroundCond {
    enum Kind { True, False, Fact, Compare, And, Or } kind = True;
    int fact = 0;
    bool truth = true;
    Rel rel = Rel::Equal;
    int left = -1, right = -1;
    i128 leftFactor = 1, rightFactor = 1;
    vector<GroundCond> parts;
};

struct Change {
    int fluent;
    bool isAssignment;
    int by;
};

struct GroundAction {
    string name;
    GroundCond pre;
    vector<int> adds, deletes;
    vector<Change> changes;
};

struct State {
    vector<uint64_t> facts;
    vector<i128> values;
    bool fact(int f) const { return (facts[f >> 6] >> (f & 63)) & 1; }
};

struct Task {
    vector<Node> nodes;
    vector<GroundAction> actions;
    GroundCond goal;
    int facts = 0, fluents = 0;
    vector<int> places;
    State initial;
    size_t prefixes = 0;

    explicit Task(const Pair &pair) : pair(pair) {
        for (auto &schema : pair.schemas) {
            Binder binder(pair, schema);
            for (auto &binding : binder.bindings()) groundAction(schema, binding);
            prefixes += binder.prefixes;
        }
        goal = fold(pair.goal, true, nullptr);
        vector<Code> kept = renumber();
        findPlaces(kept);
        alignCond(goal);
        for (auto &action : actions) {
            alignCond(action.pre);
            for (auto &change : action.changes) alignExpr(change.by);
        }
    }

  private:
    const Pair &pair;
    unordered_map<Code, int, CodeHash> factNumbers, fluentNumbers;
    vector<Code> factCodes, fluentCodes;

    static int numberOf(Code code, unordered_map<Code, int, CodeHash> &numbers,
                        vector<Code> &codes) {
        auto [at, isNew] = numbers.insert({code, (int)codes.size()});
        if (isNew) codes.push_back(code);
        return at->second;
    }
    int factOf(Code code) { return numberOf(code, factNumbers, factCodes); }
    int fluentOf(Code code) { return numberOf(code, fluentNumbers, fluentCodes); }

    // ---- expressions

    int addNode(Node node) {
        nodes.push_back(node);
        return nodes.size() - 1;
    }
    int constant(Dec value) { return addNode({Node::Const, 0, value}); }
    int reading(int fluent) { return addNode({Node::Read, fluent, {}}); }

    int combine(Node::Kind kind, int left, int right) {
        if (nodes[left].kind == Node::Const && nodes[right].kind == Node::Const) {
            Dec a = nodes[left].value, b = nodes[right].value;
            return constant(kind == Node::Add   ? add(a, b)
                            : kind == Node::Sub ? subtract(a, b)
                                                : multiply(a, b));
        }
        return addNode({kind, 0, {}, left, right});
    }

    Dec firstValue(Code code) const {
        auto at = pair.values.find(code);
        return at == pair.values.end() ? Dec{} : at->second;
    }

    int fold(const Expr &expr, const int *objects) {
        if (expr.kind == Expr::Const) return constant(expr.value);
        if (expr.kind == Expr::Read) {
            Code code = codeOf(expr.atom, objects);
            if (pair.isFixedFunction[expr.atom.symbol]) return constant(firstValue(code));
            return reading(fluentOf(code));
        }
        int left = fold(expr.sides[0], objects), right = fold(expr.sides[1], objects);
        switch (expr.kind) {
        case Expr::Add: return combine(Node::Add, left, right);
        case Expr::Sub: return combine(Node::Sub, left, right);
        case Expr::Mul: return combine(Node::Mul, left, right);
        default: return combine(Node::Mul, left, constant(inverse(nodes[right].value)));
        }
    }

    // ---- conditions

    static GroundCond decided(bool truth) {
        GroundCond cond;
        cond.kind = truth ? GroundCond::True : GroundCond::False;
        return cond;
    }

    static GroundCond join(bool isAnd, vector<GroundCond> parts) {
        GroundCond joined;
        joined.kind = isAnd ? GroundCond::And : GroundCond::Or;
        for (auto &part : parts) {
            if (part.kind == decided(!isAnd).kind) return part;
            if (part.kind == GroundCond::True || part.kind == GroundCond::False) continue;
            if (part.kind == joined.kind)
                for (auto &inner : part.parts) joined.parts.push_back(inner);
            else
                joined.parts.push_back(part);
        }
        if (joined.parts.empty()) return decided(isAnd);
        if (joined.parts.size() == 1) return GroundCond(joined.parts[0]);
        return joined;
    }

    GroundCond comparison(Rel rel, int left, int right) {
        GroundCond cond;
        cond.kind = GroundCond::Compare;
        cond.rel = rel;
        cond.left = left;
        cond.right = right;
        return cond;
    }

    GroundCond foldComparison(const Cond &cond, bool isTrue, const int *objects) {
        int left = fold(cond.sides[0], objects), right = fold(cond.sides[1], objects);
        if (nodes[left].kind == Node::Const && nodes[right].kind == Node::Const) {
            Dec a = nodes[left].value, b = nodes[right].value;
            int p = max(a.p, b.p);
            return decided(stands(cond.rel, numberAt(a, p), numberAt(b, p)) == isTrue);
        }
        if (isTrue) return comparison(cond.rel, left, right);
        switch (cond.rel) {
        case Rel::Less: return comparison(Rel::GreaterEqual, left, right);
        case Rel::LessEqual: return comparison(Rel::Greater, left, right);
        case Rel::GreaterEqual: return comparison(Rel::Less, left, right);
        case Rel::Greater: return comparison(Rel::LessEqual, left, right);
        default:
            return join(false, {comparison(Rel::Less, left, right),
                                comparison(Rel::Greater, left, right)});
        }
    }

    GroundCond fold(const Cond &cond, bool isTrue, const int *objects) {
        switch (cond.kind) {
        case Cond::And:
        case Cond::Or: {
            vector<GroundCond> parts;
            for (auto &part : cond.parts) parts.push_back(fold(part, isTrue, objects));
            return join((cond.kind == Cond::And) == isTrue, parts);
        }
        case Cond::Not: return fold(cond.parts[0], !isTrue, objects);
        case Cond::Imply:
            return join(!isTrue, {fold(cond.parts[0], !isTrue, objects),
                                  fold(cond.parts[1], isTrue, objects)});
        case Cond::Same:
            return decided((objectOf(cond.left, objects) == objectOf(cond.right, objects)) ==
                           isTrue);
        case Cond::Fact: {
            Code code = codeOf(cond.atom, objects);
            if (pair.isFixedPredicate[cond.atom.symbol])
                return decided((pair.facts.count(code) > 0) == isTrue);
            GroundCond literal;
            literal.kind = GroundCond::Fact;
            literal.fact = factOf(code);
            literal.truth = isTrue;
            return literal;
        }
        default: return foldComparison(cond, isTrue, objects);
        }
    }

    // ---- actions

    bool isDefined(const Expr &expr, const int *objects) const {
        if (expr.kind == Expr::Read) return pair.values.count(codeOf(expr.atom, objects)) > 0;
        for (auto &side : expr.sides)
            if (!isDefined(side, objects)) return false;
        return true;
    }

    bool isDefined(const Cond &cond, const int *objects) const {
        for (auto &side : cond.sides)
            if (!isDefined(side, objects)) return false;
        for (auto &part : cond.parts)
            if (!isDefined(part, objects)) return false;
        return true;
    }

    // Whether what is read has a value, and no fluent is assigned and changed otherwise as well.
    bool canBeApplied(const Schema &schema, const int *objects) const {
        if (!isDefined(schema.pre, objects)) return false;
        unordered_map<Code, bool, CodeHash> assigned;
        for (auto &effect : schema.effects) {
            if (!effect.isNumeric()) continue;
            if (!isDefined(effect.by, objects)) return false;
            Code code = codeOf(effect.atom, objects);
            if (effect.kind != Effect::Assign && !pair.values.count(code)) return false;
            bool isSum = effect.kind == Effect::Increase || effect.kind == Effect::Decrease;
            auto at = assigned.find(code);
            if (at != assigned.end() && (at->second || !isSum)) return false;
            assigned[code] = !isSum;
        }
        return true;
    }

    static bool contains(const vector<int> &list, int n) {
        return find(list.begin(), list.end(), n) != list.end();
    }

    void addChange(const Effect &effect, const int *objects, vector<Change> &changes) {
        int by = fold(effect.by, objects);
        int fluent = fluentOf(codeOf(effect.atom, objects));
        if (effect.kind == Effect::Assign) {
            changes.push_back({fluent, true, by});
            return;
        }
        if (effect.kind == Effect::Scale) {
            changes.push_back({fluent, true, combine(Node::Mul, reading(fluent), by)});
            return;
        }
        Node::Kind kind = effect.kind == Effect::Increase ? Node::Add : Node::Sub;
        for (auto &change : changes)
            if (change.fluent == fluent) {
                change.by = combine(kind, change.by, by);
                return;
            }
        if (kind == Node::Sub) by = combine(Node::Sub, constant({}), by);
        changes.push_back({fluent, false, by});
    }

    void groundAction(const Schema &schema, const Binding &binding) {
        const int *objects = binding.data();
        if (!canBeApplied(schema, objects)) return;
        size_t before = nodes.size();
        GroundAction action;
        action.pre = fold(schema.pre, true, objects);
        if (action.pre.kind == GroundCond::False) {
            nodes.erase(nodes.begin() + before, nodes.end());
            return;
        }
        for (auto &effect : schema.effects)
            if (effect.kind == Effect::Add) {
                int fact = factOf(codeOf(effect.atom, objects));
                if (!contains(action.adds, fact)) action.adds.push_back(fact);
            }
        for (auto &effect : schema.effects)
            if (effect.kind == Effect::Delete) {
                int fact = factOf(codeOf(effect.atom, objects));
                if (!contains(action.adds, fact) && !contains(action.deletes, fact))
                    action.deletes.push_back(fact);
            }
        for (auto &effect : schema.effects)
            if (effect.isNumeric()) addChange(effect, objects, action.changes);
        action.name = "(" + schema.name;
        for (int object : binding) action.name += " " + pair.namesOfObjects[object];
        action.name += ")";
        actions.push_back(move(action));
    }

    // ---- numbers

    void markRead(int node, vector<char> &isRead, vector<int> &todo) const {
        const Node &n = nodes[node];
        if (n.kind == Node::Read) {
            if (isRead[n.fluent]) return;
            isRead[n.fluent] = 1;
            todo.push_back(n.fluent);
        } else if (n.kind != Node::Const) {
            markRead(n.left, isRead, todo);
            markRead(n.right, isRead, todo);
        }
    }

    void markRead(const GroundCond &cond, vector<char> &isRead, vector<int> &todo) const {
        if (cond.kind == GroundCond::Compare) {
            markRead(cond.left, isRead, todo);
            markRead(cond.right, isRead, todo);
        }
        for (auto &part : cond.parts) markRead(part, isRead, todo);
    }

    // The fluents that a condition reads, or the changes of such a fluent.
    vector<char> readFluents() const {
        vector<char> isRead(fluentCodes.size(), 0);
        vector<int> todo;
        markRead(goal, isRead, todo);
        for (auto &action : actions) markRead(action.pre, isRead, todo);
        vector<vector<int>> changedBy(fluentCodes.size());
        for (auto &action : actions)
            for (auto &change : action.changes) changedBy[change.fluent].push_back(change.by);
        while (!todo.empty()) {
            int fluent = todo.back();
            todo.pop_back();
            for (int by : changedBy[fluent]) markRead(by, isRead, todo);
        }
        return isRead;
    }

    static void renumberFacts(GroundCond &cond, const vector<int> &numbers) {
        if (cond.kind == GroundCond::Fact) cond.fact = numbers[cond.fact];
        for (auto &part : cond.parts) renumberFacts(part, numbers);
    }

    // The new number of each of these old ones, in the order of their codes.
    static vector<int> ordered(vector<int> old, const vector<Code> &codes) {
        sort(old.begin(), old.end(), [&](int a, int b) { return codes[a] < codes[b]; });
        vector<int> numbers(codes.size(), -1);
        for (size_t i = 0; i < old.size(); i++) numbers[old[i]] = i;
        return numbers;
    }

    // Numbers facts and the fluents that matter by their codes, and gives the codes of these.
    vector<Code> renumber() {
        vector<char> isRead = readFluents();
        vector<int> oldFluents, oldFacts;
        for (size_t i = 0; i < isRead.size(); i++)
            if (isRead[i]) oldFluents.push_back(i);
        for (size_t i = 0; i < factCodes.size(); i++) oldFacts.push_back(i);
        vector<int> fluentNumber = ordered(oldFluents, fluentCodes);
        vector<int> factNumber = ordered(oldFacts, factCodes);
        facts = oldFacts.size();
        fluents = oldFluents.size();
        for (auto &node : nodes)
            if (node.kind == Node::Read) node.fluent = max(0, fluentNumber[node.fluent]);
        renumberFacts(goal, factNumber);
        for (auto &action : actions) {
            renumberFacts(action.pre, factNumber);
            for (int &fact : action.adds) fact = factNumber[fact];
            for (int &fact : action.deletes) fact = factNumber[fact];
            vector<Change> kept;
            for (auto &change : action.changes)
                if (fluentNumber[change.fluent] >= 0)
                    kept.push_back({fluentNumber[change.fluent], change.isAssignment, change.by});
            action.changes = kept;
        }
        initial.facts.assign((facts + 63) / 64, 0);
        for (int old : oldFacts)
            if (pair.facts.count(factCodes[old])) {
                int fact = factNumber[old];
                initial.facts[fact / 64] |= 1ull << (fact % 64);
            }
        vector<Code> codes(fluents);
        for (int old : oldFluents) codes[fluentNumber[old]] = fluentCodes[old];
        return codes;
    }

    // ---- places

    int placesOf(int node) const {
        const Node &n = nodes[node];
        if (n.kind == Node::Const) return n.value.p;
        if (n.kind == Node::Read) return places[n.fluent];
        int left = placesOf(n.left), right = placesOf(n.right);
        return n.kind == Node::Mul ? left + right : max(left, right);
    }

    void findPlaces(const vector<Code> &codes) {
        for (Code code : codes) places.push_back(firstValue(code).p);
        for (bool isChanged = true; isChanged;) {
            isChanged = false;
            for (auto &action : actions)
                for (auto &change : action.changes) {
                    int wanted = min(10, placesOf(change.by));
                    if (wanted <= places[change.fluent]) continue;
                    places[change.fluent] = wanted;
                    isChanged = true;
                }
        }
        for (int fluent = 0; fluent < fluents; fluent++)
            initial.values.push_back(numberAt(firstValue(codes[fluent]), places[fluent]));
    }

    void alignExpr(int node) {
        Node &n = nodes[node];
        n.places = placesOf(node);
        if (n.kind == Node::Const || n.kind == Node::Read) return;
        alignExpr(n.left);
        alignExpr(n.right);
        if (n.kind == Node::Mul) return;
        n.leftFactor = tenTo(n.places - nodes[n.left].places);
        n.rightFactor = tenTo(n.places - nodes[n.right].places);
    }

    void alignCond(GroundCond &cond) {
        if (cond.kind == GroundCond::Compare) {
            alignExpr(cond.left);
            alignExpr(cond.right);
            int p = max(nodes[cond.left].places, nodes[cond.right].places);
            cond.leftFactor = tenTo(p - nodes[cond.left].places);
            cond.rightFactor = tenTo(p - nodes[cond.right].places);
        }
        for (auto &part : cond.parts) alignCond(part);
    }
};
