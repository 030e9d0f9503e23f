; A seesaw carries weights on both ends, and comes to rest where the ends weigh the same. A spare weight is put on its left end;
; from one end to the other two are moved at a time.
(define (domain seesaw)
  (:requirements :numeric-fluents)
  (:functions (left) (right) (spare))

  (:action put
    :precondition (>= (spare) 1)
    :effect (and (decrease (spare) 1) (increase (left) 1)))

  (:action swap
    :precondition (and (>= (left) 2) (>= (right) 1))
    :effect (and (decrease (left) 2) (increase (right) 2)))

  (:action back
    :precondition (>= (right) 2)
    :effect (and (decrease (right) 2) (increase (left) 2))))
