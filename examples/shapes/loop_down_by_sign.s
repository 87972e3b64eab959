# Not easy: an index that falls until it is negative. Easy: loop_down_compared.s.
      lda r0,0(r31)
      lda r3,56(r31)     # the index
      .inv (and (ult r3 r17) (and (eq (band r3 7) 0) (all i (imp (and (ult i r17) (eq (band i 7) 0)) (rd (add r16 i))))))
loop: addq r16,r3,r5
      ldq r5,0(r5)
      addq r0,r5,r0
      lda r3,-8(r3)
      bge r3,loop
      and r0,1,r0
      ret
