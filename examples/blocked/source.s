# A filter that loads the packet's ninth quadword, and returns 1. A packet of 64 bytes has eight.
      ldq r1,64(r16)
      lda r0,1(r31)
      ret
