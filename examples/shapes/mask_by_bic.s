# Not easy: `bic` makes the index a multiple of 8. Assemble with --v2. Easy: mask_by_and.s.
      lda r0,0(r31)
      ldq r1,8(r16)
      srl r1,56,r1       # byte 15
      bic r1,7,r1        # the index: a multiple of 8
      cmpult r1,r17,r2
      beq r2,done        # it is past the end of the packet
      addq r16,r1,r1
      ldq r1,0(r1)
      and r1,1,r0
done: ret
