# Not easy: only the upper neighbour's index is compared. Easy: neighbours_both.s.
      lda r0,0(r31)
      ldq r1,8(r16)
      and r1,248,r1      # the index: a multiple of 8
      addq r1,8,r2       # the next quadword's
      cmpult r2,r17,r3
      beq r3,done
      addq r16,r1,r1
      ldq r2,0(r1)
      ldq r3,8(r1)
      cmpeq r2,r3,r0
done: ret
