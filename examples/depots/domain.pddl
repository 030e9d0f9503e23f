; Stock that is moved between depots. A depot holds an amount of goods up to its limit. A lorry takes a lot of ten units at
; once, a cart a single one; the harbour unloads what ships bring. Nothing is told of which unit stands where: only
; amounts count, so there are no facts that change.
(define (domain depots)
  (:requirements :typing :numeric-fluents :negative-preconditions :equality)
  (:types depot)
  (:predicates (is-harbour ?d - depot) (is-near ?from ?to - depot))
  (:functions
    (stock ?d - depot)      ; units that a depot holds
    (limit ?d - depot)      ; units that it has room for
    (at-sea)                ; units that wait on ships
    (trips))                ; how often anything was moved

  (:action unload
    :parameters (?d - depot)
    :precondition (and (is-harbour ?d) (>= (at-sea) 5) (<= (+ (stock ?d) 5) (limit ?d)))
    :effect (and (decrease (at-sea) 5) (increase (stock ?d) 5) (increase (trips) 1)))

  (:action send-lorry
    :parameters (?from ?to - depot)
    :precondition (and (not (= ?from ?to)) (>= (stock ?from) 10) (<= (+ (stock ?to) 10) (limit ?to)))
    :effect (and (decrease (stock ?from) 10) (increase (stock ?to) 10) (increase (trips) 1)))

  (:action send-cart
    :parameters (?from ?to - depot)
    :precondition (and (is-near ?from ?to) (>= (stock ?from) 1) (< (stock ?to) (limit ?to)))
    :effect (and (decrease (stock ?from) 1) (increase (stock ?to) 1) (increase (trips) 1))))
