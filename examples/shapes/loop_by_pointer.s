# Not easy: a loop by a pointer. It overwrites r16 and r17, which the invariant names. Easy: loop_by_index.s.
      lda r0,0(r31)
      .inv (all i (imp (and (ult i r17) (eq (band i 7) 0)) (rd (add r16 i))))
loop: cmpult r17,8,r4
      bne r4,done        # no whole quadword is left
      ldq r5,0(r16)
      addq r0,r5,r0
      addq r16,8,r16     # the pointer
      subq r17,8,r17     # the bytes that are left
      br loop
done: and r0,1,r0
      ret
