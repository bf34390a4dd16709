; sat
(set-logic BV)
(declare-const a (_ BitVec 32))
(declare-const b (_ BitVec 32))
(assert (bvult a #x00000020))
(assert (bvult b #x00000020))
(assert (forall ((x (_ BitVec 32)))
  (= (bvor (bvshl x a) (bvlshr x b)) ((_ rotate_left 16) x))))
(check-sat)
