# Easy: the quadword at 64, after a comparison of the length with a literal.
      lda r0,0(r31)
      cmpult r17,65,r2
      bne r2,done        # at most 64 bytes
      ldq r1,64(r16)
      and r1,1,r0
done: ret
