; A robot inspects shelves. Its battery holds one kilowatt hour; a move and a look each take their part of it.
(define (domain battery)
  (:requirements :strips :typing :numeric-fluents)
  (:types stop)
  (:predicates (at ?s - stop) (next ?from ?to - stop) (seen ?s - stop) (plug ?s - stop))
  (:functions (charge))               ; kilowatt hours

  (:action move
    :parameters (?from ?to - stop)
    :precondition (and (at ?from) (next ?from ?to) (>= (charge) 0.25))
    :effect (and (not (at ?from)) (at ?to) (decrease (charge) 0.25)))

  (:action look
    :parameters (?s - stop)
    :precondition (and (at ?s) (>= (charge) 0.125))
    :effect (and (seen ?s) (decrease (charge) 0.125)))

  (:action load
    :parameters (?s - stop)
    :precondition (and (at ?s) (plug ?s) (<= (charge) 0.75))
    :effect (increase (charge) 0.25)))
