// A domain and a problem, read from their texts. No check that they are well formed.
#pragma once
#include <algorithm>
#include <cstdint>
#include <cstdio>
#include <cstdlib>
#include <string>
#include <unordered_map>
#include <unordered_set>
#include <utility>
#include <vector>

using namespace std;
using i128 = __int128;
using u128 = unsigned __int128;

// ---- trees

struct Tree {
    string leaf;
    vector<Tree> kids;
    bool isList = false;
};

inline bool isBlank(char c) { return c == ' ' || c == '\n' || c == '\t' || c == '\r'; }

inline void skipGap(const char *&at) {
    for (;;) {
        while (isBlank(*at)) at++;
        if (*at != ';') return;
        while (*at && *at != '\n') at++;
    }
}

inline Tree readTree(const char *&at) {
    skipGap(at);
    Tree tree;
    if (*at != '(') {
        while (*at && !isBlank(*at) && *at != '(' && *at != ')' && *at != ';')
            tree.leaf += tolower(*at++);
        return tree;
    }
    tree.isList = true;
    at++;
    for (skipGap(at); *at != ')'; skipGap(at)) tree.kids.push_back(readTree(at));
    at++;
    return tree;
}

inline Tree readFile(const char *name) {
    FILE *file = fopen(name, "rb");
    if (!file) {
        fprintf(stderr, "no file %s\n", name);
        exit(1);
    }
    string text;
    char piece[65536];
    size_t count;
    while ((count = fread(piece, 1, sizeof piece, file)) > 0) text.append(piece, count);
    fclose(file);
    const char *at = text.c_str();
    return readTree(at);
}

// ---- decimals: n / 10^p

struct Dec {
    i128 n = 0;
    int p = 0;
};

inline i128 tenTo(int power) {
    i128 result = 1;
    while (power--) result *= 10;
    return result;
}

inline Dec trim(Dec d) {
    while (d.p > 0 && d.n % 10 == 0) {
        d.n /= 10;
        d.p--;
    }
    return d;
}

inline i128 numberAt(Dec d, int places) { return d.n * tenTo(places - d.p); }

inline Dec add(Dec a, Dec b) {
    int p = max(a.p, b.p);
    return trim({numberAt(a, p) + numberAt(b, p), p});
}

inline Dec minusOf(Dec a) { return {-a.n, a.p}; }

inline Dec subtract(Dec a, Dec b) { return add(a, minusOf(b)); }

inline Dec multiply(Dec a, Dec b) { return trim({a.n * b.n, a.p + b.p}); }

inline Dec inverse(Dec d) {
    for (int places = 0; places <= 9; places++) {
        i128 top = tenTo(places + d.p);
        if (top % d.n == 0) return trim({top / d.n, places});
    }
    fprintf(stderr, "division leaves the decimals\n");
    exit(2);
}

inline bool isNumber(const string &s) {
    return !s.empty() && (isdigit(s[0]) || (s[0] == '-' && s.size() > 1));
}

inline Dec readNumber(const string &s) {
    Dec d;
    bool isNegative = false, isBehindPoint = false;
    for (char c : s) {
        if (c == '-')
            isNegative = true;
        else if (c == '.')
            isBehindPoint = true;
        else {
            d.n = d.n * 10 + (c - '0');
            d.p += isBehindPoint;
        }
    }
    return trim(isNegative ? minusOf(d) : d);
}

enum class Rel { Less, LessEqual, Equal, GreaterEqual, Greater };

inline bool stands(Rel rel, i128 a, i128 b) {
    switch (rel) {
    case Rel::Less: return a < b;
    case Rel::LessEqual: return a <= b;
    case Rel::Equal: return a == b;
    case Rel::GreaterEqual: return a >= b;
    case Rel::Greater: return a > b;
    }
    return false;
}

// ---- the domain and the problem

// A parameter or an object, by its number.
struct Arg {
    bool isParameter;
    int number;
};

struct Atom {
    int symbol;
    vector<Arg> args;
};

struct Expr {
    enum Kind { Const, Read, Add, Sub, Mul, Div } kind = Const;
    Dec value;
    Atom atom;
    vector<Expr> sides;
};

struct Cond {
    enum Kind { And, Or, Not, Imply, Fact, Same, Compare } kind = And;
    Atom atom;
    Arg left, right;
    Rel rel;
    vector<Expr> sides;
    vector<Cond> parts;
};

struct Effect {
    enum Kind { Add, Delete, Assign, Increase, Decrease, Scale } kind;
    Atom atom;
    Expr by;
    bool isNumeric() const { return kind != Add && kind != Delete; }
};

struct Schema {
    string name;
    vector<int> types;
    Cond pre;
    vector<Effect> effects;
};

// A symbol and its objects in one number: up to eight objects of up to 4,095.
using Code = u128;

struct CodeHash {
    size_t operator()(const Code &code) const {
        uint64_t a = (uint64_t)code, b = (uint64_t)(code >> 64);
        a ^= b * 0x9E3779B97F4A7C15ull;
        a ^= a >> 29;
        a *= 0xBF58476D1CE4E5B9ull;
        a ^= a >> 32;
        return a;
    }
};

inline int objectOf(Arg arg, const int *objects) {
    return arg.isParameter ? objects[arg.number] : arg.number;
}

inline Code codeOf(const Atom &atom, const int *objects) {
    Code code = atom.symbol;
    for (Arg arg : atom.args) code = code * 4096 + objectOf(arg, objects) + 1;
    for (size_t i = atom.args.size(); i < 8; i++) code *= 4096;
    return code;
}

using Names = unordered_map<string, int>;

struct Pair {
    Names types, objects, predicates, functions;
    vector<int> parents, typesOfObjects;
    vector<string> namesOfObjects;
    vector<Schema> schemas;
    // whether no action changes them
    vector<char> isFixedPredicate, isFixedFunction;
    unordered_set<Code, CodeHash> facts;
    unordered_map<Code, Dec, CodeHash> values;
    Cond goal;

    Pair(const char *domain, const char *problem) {
        typeOf("object");
        vector<Tree> actions = readDomain(readFile(domain));
        Tree text = readFile(problem);
        for (auto &section : text.kids)
            if (section.isList && section.kids[0].leaf == ":objects") readObjects(section);
        isFixedPredicate.assign(predicates.size(), 1);
        isFixedFunction.assign(functions.size(), 1);
        for (auto &action : actions) readSchema(action);
        for (auto &section : text.kids) {
            if (!section.isList) continue;
            if (section.kids[0].leaf == ":init") readInit(section);
            if (section.kids[0].leaf == ":goal") goal = condOf(section.kids[1], {});
        }
    }

    bool isWithin(int type, int above) const {
        for (; type != above; type = parents[type])
            if (type == 0) return false;
        return true;
    }

  private:
    int typeOf(const string &name) {
        auto [at, isNew] = types.insert({name, (int)types.size()});
        if (isNew) parents.push_back(0);
        return at->second;
    }

    vector<pair<string, int>> typedList(const vector<Tree> &kids, size_t from) {
        vector<pair<string, int>> list;
        size_t untyped = 0;
        for (size_t i = from; i < kids.size(); i++) {
            if (kids[i].leaf != "-") {
                list.push_back({kids[i].leaf, 0});
                continue;
            }
            int type = typeOf(kids[++i].leaf);
            for (; untyped < list.size(); untyped++) list[untyped].second = type;
        }
        return list;
    }

    void readObjects(const Tree &section) {
        for (auto &[name, type] : typedList(section.kids, 1)) {
            objects[name] = namesOfObjects.size();
            namesOfObjects.push_back(name);
            typesOfObjects.push_back(type);
        }
    }

    static void readNames(const Tree &section, Names &names) {
        for (size_t i = 1; i < section.kids.size(); i++) {
            if (!section.kids[i].isList) {
                i++; // the type of functions
                continue;
            }
            int number = names.size();
            names[section.kids[i].kids[0].leaf] = number;
        }
    }

    // The actions are read once the objects are known.
    vector<Tree> readDomain(const Tree &text) {
        vector<Tree> actions;
        for (auto &section : text.kids) {
            if (!section.isList) continue;
            const string &head = section.kids[0].leaf;
            if (head == ":types")
                for (auto &[name, above] : typedList(section.kids, 1)) parents[typeOf(name)] = above;
            if (head == ":constants") readObjects(section);
            if (head == ":predicates") readNames(section, predicates);
            if (head == ":functions") readNames(section, functions);
            if (head == ":action") actions.push_back(section);
        }
        return actions;
    }

    void readSchema(const Tree &text) {
        Schema schema;
        Names parameters;
        schema.name = text.kids[1].leaf;
        for (size_t i = 2; i + 1 < text.kids.size(); i += 2) {
            const string &key = text.kids[i].leaf;
            const Tree &part = text.kids[i + 1];
            if (key == ":parameters")
                for (auto &[name, type] : typedList(part.kids, 0)) {
                    int number = schema.types.size();
                    parameters[name] = number;
                    schema.types.push_back(type);
                }
            if (key == ":precondition") schema.pre = condOf(part, parameters);
            if (key == ":effect") readEffects(part, parameters, schema.effects);
        }
        for (auto &effect : schema.effects)
            (effect.isNumeric() ? isFixedFunction : isFixedPredicate)[effect.atom.symbol] = 0;
        schemas.push_back(schema);
    }

    void readInit(const Tree &section) {
        for (size_t i = 1; i < section.kids.size(); i++) {
            const Tree &entry = section.kids[i];
            if (entry.kids[0].leaf == "=" && entry.kids[1].isList)
                values[codeOf(atomOf(entry.kids[1], {}, functions), nullptr)] =
                    readNumber(entry.kids[2].leaf);
            else
                facts.insert(codeOf(atomOf(entry, {}, predicates), nullptr));
        }
    }

    Arg argOf(const string &name, const Names &parameters) const {
        if (name[0] == '?') return {true, parameters.at(name)};
        return {false, objects.at(name)};
    }

    Atom atomOf(const Tree &text, const Names &parameters, const Names &symbols) const {
        Atom atom;
        atom.symbol = symbols.at(text.kids[0].leaf);
        for (size_t i = 1; i < text.kids.size(); i++)
            atom.args.push_back(argOf(text.kids[i].leaf, parameters));
        return atom;
    }

    Expr exprOf(const Tree &text, const Names &parameters) const {
        Expr expr;
        if (!text.isList) {
            expr.value = readNumber(text.leaf);
            return expr;
        }
        const string &head = text.kids[0].leaf;
        if (head != "+" && head != "-" && head != "*" && head != "/") {
            expr.kind = Expr::Read;
            expr.atom = atomOf(text, parameters, functions);
            return expr;
        }
        Expr::Kind kind = head == "+"   ? Expr::Add
                          : head == "-" ? Expr::Sub
                          : head == "*" ? Expr::Mul
                                        : Expr::Div;
        bool isNegation = kind == Expr::Sub && text.kids.size() == 2;
        if (!isNegation) expr = exprOf(text.kids[1], parameters);
        for (size_t i = isNegation ? 1 : 2; i < text.kids.size(); i++) {
            Expr both;
            both.kind = kind;
            both.sides = {expr, exprOf(text.kids[i], parameters)};
            expr = both;
        }
        return expr;
    }

    Cond condOf(const Tree &text, const Names &parameters) const {
        Cond cond;
        if (text.kids.empty()) return cond;
        const string &head = text.kids[0].leaf;
        if (head == "and" || head == "or" || head == "not" || head == "imply") {
            cond.kind = head == "and"   ? Cond::And
                        : head == "or"  ? Cond::Or
                        : head == "not" ? Cond::Not
                                        : Cond::Imply;
            for (size_t i = 1; i < text.kids.size(); i++)
                cond.parts.push_back(condOf(text.kids[i], parameters));
            return cond;
        }
        if (head != "<" && head != "<=" && head != "=" && head != ">=" && head != ">") {
            cond.kind = Cond::Fact;
            cond.atom = atomOf(text, parameters, predicates);
            return cond;
        }
        if (head == "=" && !text.kids[1].isList && !isNumber(text.kids[1].leaf)) {
            cond.kind = Cond::Same;
            cond.left = argOf(text.kids[1].leaf, parameters);
            cond.right = argOf(text.kids[2].leaf, parameters);
            return cond;
        }
        cond.kind = Cond::Compare;
        cond.rel = head == "<"    ? Rel::Less
                   : head == "<=" ? Rel::LessEqual
                   : head == "="  ? Rel::Equal
                   : head == ">=" ? Rel::GreaterEqual
                                  : Rel::Greater;
        cond.sides = {exprOf(text.kids[1], parameters), exprOf(text.kids[2], parameters)};
        return cond;
    }

    void readEffects(const Tree &text, const Names &parameters, vector<Effect> &effects) const {
        if (text.kids.empty()) return;
        const string &head = text.kids[0].leaf;
        if (head == "and") {
            for (size_t i = 1; i < text.kids.size(); i++)
                readEffects(text.kids[i], parameters, effects);
            return;
        }
        Effect effect;
        if (head == "not") {
            effect.kind = Effect::Delete;
            effect.atom = atomOf(text.kids[1], parameters, predicates);
        } else if (functions.count(head) == 0 && predicates.count(head) > 0) {
            effect.kind = Effect::Add;
            effect.atom = atomOf(text, parameters, predicates);
        } else {
            effect.kind = head == "assign"     ? Effect::Assign
                          : head == "increase" ? Effect::Increase
                          : head == "decrease" ? Effect::Decrease
                                               : Effect::Scale;
            effect.atom = atomOf(text.kids[1], parameters, functions);
            effect.by = exprOf(text.kids[2], parameters);
        }
        effects.push_back(effect);
    }
};
