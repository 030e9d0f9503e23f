; A culture of cells in a dish: each day makes a thousand of one.
(define (domain culture)
  (:requirements :numeric-fluents)
  (:functions (cells))

  (:action grow
    :effect (assign (cells) (* 1000 (cells)))))
