; The cistern has water for both fields, and the seed is enough for the small one: what that earns has to buy the rest.
(define (problem two-fields)
  (:domain farm)
  (:objects meadow hill - field)
  (:init
    (= (size meadow) 1.5) (= (size hill) 0.5)
    (= (thirst meadow) 30) (= (thirst hill) 15)
    (= (moisture meadow) 0) (= (moisture hill) 0)
    (= (cistern) 50) (= (seed) 2) (= (money) 5))
  (:goal (and (reaped meadow) (reaped hill) (>= (money) 60))))
