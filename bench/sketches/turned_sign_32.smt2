; sat
(set-logic BV)
(declare-const a (_ BitVec 32))
(declare-const b (_ BitVec 32))
(assert (forall ((x (_ BitVec 32)))
  (= (bvadd (bvnot (bvadd x a)) x) b)))
(check-sat)
