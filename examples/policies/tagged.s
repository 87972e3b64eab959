# Policy tag, accepted: stores 1 into the data if the tag permits it.
      ldq r1,0(r16)      # the tag
      beq r1,done
      lda r2,1(r31)
      stq r2,8(r16)
done: ret
