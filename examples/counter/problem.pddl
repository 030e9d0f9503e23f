; From 0 to at least 3.
(define (problem three)
 (:domain counter)
 (:init (= (count) 0))
 (:goal (>= (count) 3)))
