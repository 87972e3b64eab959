# Easy: an index from the packet's end, by `lda`. It is compared with the length all the same.
      lda r0,0(r31)
      lda r1,-8(r17)
      srl r1,3,r1
      sll r1,3,r1        # the index of the last whole quadword
      cmpult r1,r17,r2
      beq r2,done        # never: it only tells `prove` that the index is below the length
      addq r16,r1,r1
      ldq r1,0(r1)
      and r1,1,r0
done: ret
