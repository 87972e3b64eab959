# Not easy, for the policy `table`: the index times 8 by `addq`. Easy: scale_by_sll.s.
      lda r0,0(r31)
      lda r3,0(r31)      # the index, in quadwords
      .inv (all i (imp (ult i r17) (rd (add r16 (sll i 3)))))
loop: cmpult r3,r17,r4
      beq r4,done
      addq r3,r3,r5
      addq r5,r5,r5
      addq r5,r5,r5
      addq r16,r5,r5
      ldq r5,0(r5)
      addq r0,r5,r0
      addq r3,1,r3
      br loop
done: ret
