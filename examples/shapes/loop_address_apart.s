# Easy: a loop with its test at the end. The address has a register apart from the index.
      lda r0,0(r31)
      lda r3,0(r31)      # the index
      .inv (and (ult r3 r17) (and (eq (band r3 7) 0) (all i (imp (and (ult i r17) (eq (band i 7) 0)) (rd (add r16 i))))))
loop: addq r16,r3,r5
      ldq r5,0(r5)
      addq r0,r5,r0
      addq r3,8,r3
      cmpult r3,r17,r4
      bne r4,loop
      and r0,1,r0
      ret
