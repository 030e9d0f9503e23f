; A counter that can only go up.
(define (domain counter)
 (:functions (count))
 (:action increment :effect (increase (count) 1)))
