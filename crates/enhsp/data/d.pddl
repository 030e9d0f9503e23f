(define (domain d) (:functions (x)) (:action inc :effect (increase (x) 1)))
