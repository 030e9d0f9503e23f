; Five litres with a jug of four and a jug of six: what they can hold is always even.
(define (problem five)
  (:domain jugs)
  (:objects small large - jug)
  (:init
    (differ small large) (differ large small)
    (= (size small) 4) (= (size large) 6)
    (= (holds small) 0) (= (holds large) 0))
  (:goal (= (holds large) 5)))
