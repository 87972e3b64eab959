# To be refused: the loop has no invariant, so nobody says what holds at its head. It counts the packet's
# quadwords, and returns whether they are an odd number.
      lda r1,0(r31)
      lda r0,0(r31)
loop: cmpult r1,r17,r2
      beq r2,done
      addq r1,8,r1
      addq r0,1,r0
      br loop
done: and r0,1,r0
      ret
