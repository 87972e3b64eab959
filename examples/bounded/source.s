# A filter: the packets that have a quadword of zeros among their first eight. It is a loop that returns within 69
# steps: `pcc asm filter examples/bounded/source.s OUT --bound 69`.
      lda r3,68(r31)     # how many steps are left at the loop's head, if no zeros are found

      # What holds at the head of the loop: enough steps are left, and the packet's first 64 bytes may be loaded.
      .inv (and (ule r3 left) (and (ule 4 r3) (and (ule 64 r17) (all i (imp (and (ult i r17) (eq (band i 7) 0)) (rd (add r16 i)))))))
loop: cmpult r3,12,r4
      bne r4,none        # four steps are left: all eight have been looked at
      and r3,56,r4       # where the next one stands: at 0, then at 56, 48, .. 8
      addq r16,r4,r4
      ldq r4,0(r4)
      cmpeq r4,0,r0
      subq r3,8,r3       # a round takes eight steps
      beq r0,loop
      ret                # r0 is 1
none: lda r0,0(r31)
      ret
