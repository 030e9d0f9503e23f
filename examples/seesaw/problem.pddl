; The right end has one weight and only ever gets or loses two, so it never has four.
(define (problem level)
  (:domain seesaw)
  (:init (= (left) 4) (= (right) 1) (= (spare) 3))
  (:goal (and (= (left) (right)) (= (spare) 0))))
