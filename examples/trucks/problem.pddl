; Two parcels are too heavy for one tour together, and the tank is too small for two tours without a stop at the pump.
(define (problem three-parcels)
  (:domain trucks)
  (:objects van - truck stove table lamp - parcel yard town farm - place)
  (:init
    (at van yard) (lies stove yard) (lies table yard) (lies lamp town) (has-pump yard)
    (= (distance yard town) 20) (= (distance town yard) 20)
    (= (distance town farm) 12.5) (= (distance farm town) 12.5)
    (= (tank van) 8) (= (fuel van) 6.5) (= (burn van) 0.1)
    (= (capacity van) 100) (= (cargo van) 0)
    (= (weight stove) 80) (= (weight table) 45.5) (= (weight lamp) 3)
    (= (driven) 0))
  (:goal (and (lies stove farm) (lies table town) (lies lamp farm) (>= (fuel van) 2)))
  (:metric minimize (driven)))
