(define (problem four-shelves)
  (:domain battery)
  (:objects dock a b c d - stop)
  (:init
    (at dock) (plug dock) (plug c)
    (next dock a) (next a b) (next b c) (next c d)
    (next a dock) (next b a) (next c b) (next d c)
    (= (charge) 1))
  (:goal (and (seen a) (seen b) (seen c) (seen d) (>= (charge) 0.5))))
