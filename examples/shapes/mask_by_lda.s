# Not easy: the index's mask is in a register. Easy: mask_by_shifts.s.
      lda r0,0(r31)
      ldq r1,8(r16)
      lda r2,-8(r31)     # all bits but the lowest three
      and r1,r2,r1       # the index: a multiple of 8
      cmpult r1,r17,r2
      beq r2,done        # it is past the end of the packet
      addq r16,r1,r1
      ldq r1,0(r1)
      and r1,1,r0
done: ret
