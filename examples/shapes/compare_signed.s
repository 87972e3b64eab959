# Not easy: the index is compared by `cmplt`. Easy: compare_unsigned.s.
      lda r0,0(r31)
      ldq r1,8(r16)
      srl r1,56,r1
      sll r1,3,r1        # the index: byte 15, times 8
      cmplt r1,r17,r2
      beq r2,done        # it is past the end of the packet
      addq r16,r1,r1
      ldq r1,0(r1)
      and r1,1,r0
done: ret
