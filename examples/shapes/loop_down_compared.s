# Easy: an index that falls by `lda`, and is compared with the length in each iteration.
      lda r0,0(r31)
      lda r3,56(r31)     # the index
      .inv (and (eq (band r3 7) 0) (all i (imp (and (ult i r17) (eq (band i 7) 0)) (rd (add r16 i)))))
loop: cmpult r3,r17,r4
      beq r4,done        # after 0 it is 2^64 - 8
      addq r16,r3,r5
      ldq r5,0(r5)
      addq r0,r5,r0
      lda r3,-8(r3)
      br loop
done: and r0,1,r0
      ret
