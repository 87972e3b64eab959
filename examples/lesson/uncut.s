# zeros.s without an invariant of its loop.
# docs/FIRST-FILTER.md says what `pcc_view` shows of it; zeros.s is right.
      lda r0,0(r31)
      lda r3,0(r31)      # the index
loop: cmpult r3,r17,r4
      beq r4,done        # behind the packet
      addq r16,r3,r4
      ldq r4,0(r4)
      addq r3,8,r3
      bne r4,loop
      lda r0,1(r31)      # a quadword of zeros
done: ret
