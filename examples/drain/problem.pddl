; No number of drains fills it.
(define (problem fill)
 (:domain tank)
 (:init (= (litres) 0))
 (:goal (>= (litres) 1)))
