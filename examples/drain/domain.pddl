; A tank that only loses water: an increase by a negative number.
(define (domain tank)
 (:functions (litres))
 (:action drain :effect (increase (litres) -1)))
