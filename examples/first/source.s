# A filter: it loads the packet's second quadword and returns 1.
      ldq r1,8(r16)
      lda r0,1(r31)
      ret
