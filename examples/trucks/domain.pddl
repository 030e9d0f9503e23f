; Deliveries by truck. A truck drives from place to place and burns fuel with the distance. It may fill its tank
; where there is a pump. It carries parcels, each with its own weight, up to its capacity.
(define (domain trucks)
  (:requirements :strips :typing :numeric-fluents)
  (:types truck parcel place - object)
  (:predicates
    (at ?t - truck ?p - place)        ; where a truck stands
    (lies ?c - parcel ?p - place)     ; where a parcel waits, or was brought
    (in ?c - parcel ?t - truck)       ; which truck carries a parcel
    (has-pump ?p - place))            ; where fuel is sold
  (:functions
    (distance ?from ?to - place)      ; in kilometres; only where there is a road
    (tank ?t - truck)                 ; litres that the tank holds
    (fuel ?t - truck)                 ; litres that are in it
    (burn ?t - truck)                 ; litres for a kilometre
    (capacity ?t - truck)             ; kilograms that the truck may carry
    (cargo ?t - truck)                ; kilograms that it carries
    (weight ?c - parcel)
    (driven))                         ; kilometres of all trucks

  (:action drive
    :parameters (?t - truck ?from ?to - place)
    :precondition (and (at ?t ?from) (>= (fuel ?t) (* (burn ?t) (distance ?from ?to))))
    :effect (and (not (at ?t ?from)) (at ?t ?to)
      (decrease (fuel ?t) (* (burn ?t) (distance ?from ?to)))
      (increase (driven) (distance ?from ?to))))

  (:action refuel
    :parameters (?t - truck ?p - place)
    :precondition (and (at ?t ?p) (has-pump ?p) (< (fuel ?t) (tank ?t)))
    :effect (assign (fuel ?t) (tank ?t)))

  (:action take
    :parameters (?c - parcel ?t - truck ?p - place)
    :precondition (and (lies ?c ?p) (at ?t ?p) (<= (+ (cargo ?t) (weight ?c)) (capacity ?t)))
    :effect (and (not (lies ?c ?p)) (in ?c ?t) (increase (cargo ?t) (weight ?c))))

  (:action leave
    :parameters (?c - parcel ?t - truck ?p - place)
    :precondition (and (in ?c ?t) (at ?t ?p))
    :effect (and (not (in ?c ?t)) (lies ?c ?p) (decrease (cargo ?t) (weight ?c)))))
