; unsat
(set-logic BV)
(declare-const a (_ BitVec 16))
(declare-const b (_ BitVec 16))
(assert (bvult a #x0020))
(assert (bvult b #x0020))
(assert (forall ((x (_ BitVec 16))) (=> (bvult x #x0020)
  (= (bvmul (bvadd x a) (bvadd x b)) (bvadd (bvmul x x) #x0001)))))
(check-sat)
