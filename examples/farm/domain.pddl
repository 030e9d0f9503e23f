; A farm over one dry season. Fields are sown and then watered from one cistern, which no rain fills any more. A sown field
; that has had enough water may be reaped; what it gives is sold, and the money buys seed.
(define (domain farm)
  (:requirements :strips :typing :numeric-fluents :negative-preconditions)
  (:types field)
  (:predicates
    (sown ?f - field)
    (reaped ?f - field))
  (:functions
    (size ?f - field)       ; hectares
    (thirst ?f - field)     ; cubic metres of water that it needs, from sowing to reaping
    (moisture ?f - field)   ; cubic metres that it has had since it was sown
    (cistern)               ; cubic metres that are left
    (seed)                  ; sacks in the barn
    (money))

  (:action buy-seed
    :parameters ()
    :precondition (>= (money) 12.5)
    :effect (and (decrease (money) 12.5) (increase (seed) 1)))

  (:action sow
    :parameters (?f - field)
    :precondition (and (not (sown ?f)) (not (reaped ?f)) (>= (seed) (* 2 (size ?f))))
    :effect (and (sown ?f) (decrease (seed) (* 2 (size ?f))) (assign (moisture ?f) 0)))

  (:action water
    :parameters (?f - field)
    :precondition (and (sown ?f) (>= (cistern) 10))
    :effect (and (decrease (cistern) 10) (increase (moisture ?f) 10)))

  (:action reap
    :parameters (?f - field)
    :precondition (and (sown ?f) (>= (moisture ?f) (thirst ?f)))
    :effect (and (not (sown ?f)) (reaped ?f) (increase (money) (* 40 (size ?f))))))
