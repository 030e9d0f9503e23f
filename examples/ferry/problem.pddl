(define (problem three-cars)
  (:domain ferry)
  (:objects bus van mini - car north south - bank)
  (:init
    (moored north) (across north south) (across south north)
    (waits bus north) (waits van north) (waits mini north)
    (= (length bus) 7.5) (= (length van) 4.5) (= (length mini) 3)
    (= (deck) 9) (= (fuel) 3))
  (:goal (and (waits bus south) (waits van south) (waits mini south))))
