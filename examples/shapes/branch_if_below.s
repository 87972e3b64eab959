# Easy: it branches to the load if the index is below the length.
      lda r0,0(r31)
      ldq r1,8(r16)
      and r1,248,r1      # the index: a multiple of 8
      cmpult r1,r17,r2
      bne r2,load        # the index is below the length
      ret
load: addq r16,r1,r1
      ldq r1,0(r1)
      and r1,1,r0
      ret
