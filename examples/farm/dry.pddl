; The same farm with less water than one watering takes: whatever is sown, nothing can be reaped.
(define (problem dry)
  (:domain farm)
  (:objects meadow hill - field)
  (:init
    (= (size meadow) 1.5) (= (size hill) 0.5)
    (= (thirst meadow) 30) (= (thirst hill) 15)
    (= (moisture meadow) 0) (= (moisture hill) 0)
    (= (cistern) 8) (= (seed) 4) (= (money) 5))
  (:goal (reaped hill)))
