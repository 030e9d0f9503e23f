; A ferry crosses a river. It carries cars up to its length, and burns fuel at each crossing.
(define (domain ferry)
  (:requirements :strips :typing :negative-preconditions :numeric-fluents)
  (:types car bank)
  (:predicates
    (moored ?b - bank)               ; where the ferry lies
    (across ?from ?to - bank)
    (waits ?c - car ?b - bank)
    (aboard ?c - car))
  (:functions
    (length ?c - car)                ; metres of deck
    (deck)                           ; metres that are free
    (fuel))                          ; crossings that the fuel lasts for

  (:action board
    :parameters (?c - car ?b - bank)
    :precondition (and (moored ?b) (waits ?c ?b) (<= (length ?c) (deck)))
    :effect (and (not (waits ?c ?b)) (aboard ?c) (decrease (deck) (length ?c))))

  (:action land
    :parameters (?c - car ?b - bank)
    :precondition (and (moored ?b) (aboard ?c))
    :effect (and (not (aboard ?c)) (waits ?c ?b) (increase (deck) (length ?c))))

  (:action cross
    :parameters (?from ?to - bank)
    :precondition (and (across ?from ?to) (moored ?from) (>= (fuel) 1))
    :effect (and (not (moored ?from)) (moored ?to) (decrease (fuel) 1))))
