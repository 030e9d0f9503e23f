; The harbour is nearly full, so stock has to leave before ships can be unloaded. The mill asks for twelve units and for a
; share: at least half of what the harbour keeps.
(define (problem twelve-for-the-mill)
  (:domain depots)
  (:objects harbour market mill - depot)
  (:init
    (is-harbour harbour) (is-near market mill) (is-near mill market)
    (= (stock harbour) 18) (= (limit harbour) 20)
    (= (stock market) 2) (= (limit market) 15)
    (= (stock mill) 0) (= (limit mill) 13)
    (= (at-sea) 15) (= (trips) 0))
  (:goal (and (>= (stock mill) 12) (<= (at-sea) 5) (>= (stock mill) (* 0.5 (stock harbour)))))
  (:metric minimize (trips)))
