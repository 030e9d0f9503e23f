; Fifteen hundred cells, which no day gives. The search follows the cells until their number leaves 128 bits.
(define (problem fifteen-hundred)
  (:domain culture)
  (:init (= (cells) 1))
  (:goal (= (cells) 1500)))
