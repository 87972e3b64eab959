# Not easy: the length is compared with 64 in a register. Easy: length_by_literal.s.
      lda r0,0(r31)
      lda r1,64(r31)
      cmpult r1,r17,r2
      beq r2,done        # at most 64 bytes
      ldq r1,64(r16)
      and r1,1,r0
done: ret
