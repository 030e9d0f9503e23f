#!/usr/bin/env python3
"""make_pairs.py FOLDER: writes the pairs that the planner's parts are measured on, each as d.pddl and p.pddl in a folder of its own."""
import os
import random
import sys


def numbered(letter, count):
    return [f"{letter}{i}" for i in range(count)]


def write(name, domain, problem):
    folder = os.path.join(sys.argv[1], name)
    os.makedirs(folder, exist_ok=True)
    for file, text in (("d.pddl", domain), ("p.pddl", problem)):
        with open(os.path.join(folder, file), "w", encoding="utf-8") as out:
            out.write(text)


def problem(name, objects, init, goal):
    typed = " ".join(f"{' '.join(names)} - {kind}" for kind, names in objects.items())
    return f"(define (problem {name}) (:domain {name}) (:objects {typed}) (:init {' '.join(init)}) (:goal (and {' '.join(goal)})))"


def domain(name, types, predicates, functions, actions):
    text = f"(define (domain {name}) (:requirements :strips :typing :numeric-fluents) (:types {types})"
    text += f" (:predicates {predicates}) (:functions {functions})"
    for action, parameters, precondition, effect in actions:
        text += f"\n(:action {action} :parameters ({parameters})"
        text += (f" :precondition {precondition}" if precondition else "") + f" :effect {effect})"
    return text + ")\n"


def counters():
    """64 counters that are to be in ascending order."""
    count = 64
    write(
        "counters",
        domain(
            "counters",
            "counter",
            "(next ?a ?b - counter)",
            "(value ?c - counter)",
            [
                ("up", "?c - counter", "(<= (+ (value ?c) 1) 128)", "(increase (value ?c) 1)"),
                ("down", "?c - counter", "(>= (value ?c) 1)", "(decrease (value ?c) 1)"),
            ],
        ),
        problem(
            "counters",
            {"counter": numbered("c", count)},
            [f"(= (value c{i}) {i * 7 % 13})" for i in range(count)],
            [f"(<= (+ (value c{i}) 1) (value c{i + 1}))" for i in range(count - 1)],
        ),
    )


def guards(dice):
    """5,000 actions, each with two facts and a comparison, and 300 more that change the facts."""
    first, second = 50, 100
    init = [f"(on a{i})" for i in range(0, first, 2)] + [f"(lit b{i})" for i in range(0, second, 2)]
    init += [f"(= (x a{i}) {dice.randint(0, 50)})" for i in range(first)]
    init += [f"(= (need b{i}) {dice.randint(0, 100)}) (= (gain b{i}) {dice.randint(-5, 7)})" for i in range(second)]
    write(
        "guards",
        domain(
            "guards",
            "a b",
            "(on ?a - a) (lit ?b - b)",
            "(x ?a - a) (need ?b - b) (gain ?b - b)",
            [
                ("go", "?a - a ?b - b", "(and (on ?a) (lit ?b) (>= (x ?a) (need ?b)))", "(and (increase (x ?a) (gain ?b)))"),
                ("flip", "?a - a", "", "(and (on ?a))"),
                ("drop", "?a - a", "(on ?a)", "(not (on ?a))"),
                ("light", "?b - b", "", "(lit ?b)"),
                ("dim", "?b - b", "(lit ?b)", "(not (lit ?b))"),
            ],
        ),
        problem(
            "guards",
            {"a": numbered("a", first), "b": numbered("b", second)},
            init,
            [f"(>= (x a{i}) 1000) (on a{i})" for i in range(first)],
        ),
    )


def fleet(dice):
    """Forty trucks, two hundred places in two halves, four hundred roads; each truck serves one half."""
    places, trucks = 200, 40
    half = places // 2
    roads = sorted(
        {(h + i, h + j) for h in (0, half) for i in range(half) for j in ((i + 1) % half, (i * 37 + 11) % half) if i != j}
    )
    init = [f"(serves t{t} p{t % 2 * half + i})" for t in range(trucks) for i in range(half)]
    init += [f"(road p{a} p{b}) (= (distance p{a} p{b}) {dice.randint(1, 90)})" for a, b in roads]
    init += [
        f"(at t{i} p{i % 2 * half + dice.randint(0, 1)}) (= (fuel t{i}) {dice.randint(500, 900)}) (= (burn t{i}) 0.{dice.randint(1, 9)})"
        for i in range(trucks)
    ]
    burnt = "(* (burn ?t) (distance ?a ?b))"
    write(
        "fleet",
        domain(
            "fleet",
            "truck place",
            "(road ?a ?b - place) (serves ?t - truck ?p - place) (at ?t - truck ?p - place)",
            "(distance ?a ?b - place) (fuel ?t - truck) (burn ?t - truck)",
            [
                (
                    "drive",
                    "?t - truck ?a ?b - place",
                    f"(and (serves ?t ?a) (serves ?t ?b) (road ?a ?b) (at ?t ?a) (>= (fuel ?t) {burnt}))",
                    f"(and (not (at ?t ?a)) (at ?t ?b) (decrease (fuel ?t) {burnt}))",
                )
            ],
        ),
        problem(
            "fleet",
            {"truck": numbered("t", trucks), "place": numbered("p", places)},
            init,
            [f"(>= (fuel t{i}) 10)" for i in range(trucks)],
        ),
    )


def many():
    """Five million prefixes of bindings, twenty thousand actions that are kept."""
    count = 169
    write(
        "many",
        domain(
            "many",
            "o k",
            "(open ?a - o) (ok ?a ?b - o) (done ?k - k)",
            "(x) (cost ?a - o)",
            [
                (
                    "take",
                    "?a ?b ?c - o",
                    "(and (or (ok ?a ?b) (not (ok ?b ?a))) (< (cost ?a) (cost ?b)) (< (cost ?b) (cost ?c)) (< (cost ?c) 50))",
                    "(increase (x) (cost ?c))",
                )
            ],
        ),
        problem(
            "many",
            {"o": numbered("o", count), "k": ["k0"]},
            ["(= (x) 0)"] + [f"(= (cost o{i}) {i})" for i in range(count)],
            ["(>= (x) 1000)"],
        ),
    )


def chain():
    """256 fluents with 78 steps each; the actions stand in the reverse of the order in which they enable one another."""
    fluents, steps = 256, 78
    write(
        "chain",
        domain(
            "chain",
            "f k",
            "(next ?g ?f - f)",
            "(x ?f - f) (n ?k - k)",
            [
                (
                    "up",
                    "?g ?f - f ?k - k",
                    f"(and (next ?g ?f) (>= (x ?f) (n ?k)) (>= (x ?g) {steps}))",
                    "(assign (x ?f) (+ (n ?k) 1))",
                )
            ],
        ),
        problem(
            "chain",
            {"f": numbered("f", fluents)[::-1], "k": numbered("k", steps)[::-1]},
            [f"(next f{i} f{i + 1})" for i in range(fluents - 1)]
            + ["(next f0 f0)", f"(= (x f0) {steps})"]
            + [f"(= (x f{i}) 0)" for i in range(1, fluents)]
            + [f"(= (n k{i}) {i})" for i in range(steps)],
            [f"(>= (x f{fluents - 1}) {steps})"],
        ),
    )


def main():
    dice = random.Random(5)
    counters()
    guards(dice)
    fleet(dice)
    many()
    chain()


main()
