# Easy: a loop by an index. It leaves r16 and r17 as they are, so the invariant's right stays.
      lda r0,0(r31)
      lda r3,0(r31)      # the index
      .inv (and (eq (band r3 7) 0) (all i (imp (and (ult i r17) (eq (band i 7) 0)) (rd (add r16 i)))))
loop: cmpult r3,r17,r4
      beq r4,done
      addq r16,r3,r5
      ldq r5,0(r5)
      addq r0,r5,r0
      addq r3,8,r3
      br loop
done: and r0,1,r0
      ret
