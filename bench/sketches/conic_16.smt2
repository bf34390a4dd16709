; sat
(set-logic QF_BV)
(declare-const a (_ BitVec 8))
(declare-const b (_ BitVec 8))
(define-fun x () (_ BitVec 16) ((_ zero_extend 8) a))
(define-fun y () (_ BitVec 16) ((_ zero_extend 8) b))
(assert (= (bvadd (bvmul (_ bv3 16) x x) (bvmul (_ bv5 16) x y) (bvmul (_ bv7 16) y y)) (_ bv55171 16)))
(check-sat)
