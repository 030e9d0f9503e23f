; Two jugs without marks, a well and a drain. A jug is filled to the brim, emptied, or poured into the other until
; one is empty or the other full.
(define (domain jugs)
  (:requirements :typing :numeric-fluents)
  (:types jug)
  (:predicates (differ ?from ?to - jug))
  (:functions
    (holds ?j - jug)        ; litres that are in it
    (size ?j - jug))        ; litres that it can hold

  (:action fill
    :parameters (?j - jug)
    :precondition (< (holds ?j) (size ?j))
    :effect (assign (holds ?j) (size ?j)))

  (:action empty
    :parameters (?j - jug)
    :precondition (> (holds ?j) 0)
    :effect (assign (holds ?j) 0))

  (:action pour-all
    :parameters (?from ?to - jug)
    :precondition (and (differ ?from ?to) (> (holds ?from) 0) (<= (+ (holds ?from) (holds ?to)) (size ?to)))
    :effect (and (increase (holds ?to) (holds ?from)) (assign (holds ?from) 0)))

  (:action pour-until-full
    :parameters (?from ?to - jug)
    :precondition (and (differ ?from ?to) (< (holds ?to) (size ?to)) (>= (+ (holds ?from) (holds ?to)) (size ?to)))
    :effect (and (decrease (holds ?from) (- (size ?to) (holds ?to))) (assign (holds ?to) (size ?to)))))
