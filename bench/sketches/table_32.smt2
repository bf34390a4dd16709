; sat
(set-logic BV)
(declare-const table (_ BitVec 32))
(assert (forall ((x (_ BitVec 5)))
  (let ((i ((_ zero_extend 27) x)))
  (= (= ((_ extract 0 0) (bvlshr table i)) #b1) (= (bvurem i #x00000003) #x00000000)))))
(check-sat)
