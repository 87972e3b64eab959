# Policy filter, rejected: a packet of 64 bytes has no quadword at 64.
      ldq r1,64(r16)
      lda r0,1(r31)
      ret
