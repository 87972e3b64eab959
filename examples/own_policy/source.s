# Copies the quadword at r16 to the one behind it, and returns whether it was 0.
      ldq r1,0(r16)
      stq r1,8(r16)
      cmpeq r1,r31,r0
      ret
