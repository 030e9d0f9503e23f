; Four litres with a jug of three and a jug of five.
(define (problem four)
  (:domain jugs)
  (:objects small large - jug)
  (:init
    (differ small large) (differ large small)
    (= (size small) 3) (= (size large) 5)
    (= (holds small) 0) (= (holds large) 0))
  (:goal (= (holds large) 4)))
