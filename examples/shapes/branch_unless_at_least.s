# Not easy: it branches to the load unless the index is at least the length. Easy: branch_if_below.s.
      lda r0,0(r31)
      ldq r1,8(r16)
      and r1,248,r1      # the index: a multiple of 8
      cmpule r17,r1,r2
      beq r2,load        # the length isn't at most the index
      ret
load: addq r16,r1,r1
      ldq r1,0(r1)
      and r1,1,r0
      ret
