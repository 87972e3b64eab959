# Code for the policy `table`: it adds up the table's quadwords. r16 is the table's address, r17 the
# number of its quadwords; r4 counts, r0 is the sum. The invariant says at the head of the loop that
# all of the table may be loaded and stored.
      lda r0,0(r31)
      lda r4,0(r31)
      .inv (all i (imp (ult i r17) (and (rd (add r16 (sll i 3))) (wr (add r16 (sll i 3))))))
loop: cmpult r4,r17,r5
      beq r5,done
      sll r4,3,r6
      addq r16,r6,r6
      ldq r7,0(r6)
      addq r0,r7,r0
      addq r4,1,r4
      br loop
done: ret
