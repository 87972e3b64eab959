# An agent for the policy `table`: it sorts the table's quadwords, the least first, by exchanging
# neighbours until a pass exchanges none. r16 is the table's address, r17 the number of its quadwords;
# r0 counts the exchanges, r3 is the place in the table, r1 says whether the pass exchanged.
      lda r0,0(r31)

      # A pass begins: all of the table may be loaded and stored.
      .inv (all i (imp (ult i r17) (and (rd (add r16 (sll i 3))) (wr (add r16 (sll i 3))))))
pass: lda r1,0(r31)
      lda r3,0(r31)
      cmpult r3,r17,r4
      beq r4,done        # the table is empty

      # In a pass: the same, and the place lies in the table.
      .inv (and (ult r3 r17) (all i (imp (ult i r17) (and (rd (add r16 (sll i 3))) (wr (add r16 (sll i 3)))))))
next: addq r3,1,r4
      cmpult r4,r17,r5
      beq r5,last        # it is the last place
      sll r3,3,r5
      addq r16,r5,r5     # the address of the place
      ldq r6,0(r5)
      sll r4,3,r7
      addq r16,r7,r7     # and of the next one
      ldq r8,0(r7)
      addq r3,1,r3
      cmpule r6,r8,r2
      bne r2,next        # they are in order
      stq r8,0(r5)
      stq r6,0(r7)
      addq r0,1,r0
      lda r1,1(r31)
      br next
last: bne r1,pass
done: ret
