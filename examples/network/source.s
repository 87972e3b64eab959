# A filter: the IP packets whose source address lies in 192.0.2.0/24. The address is in bytes 26 to 29.
      ldq r1,8(r16)      # bytes 8 to 15
      sll r1,16,r1
      srl r1,48,r1       # the Ethernet type, bytes 12 and 13
      cmpeq r1,0x08,r0   # 08 00
      beq r0,done        # no IP packet
      ldq r1,24(r16)     # bytes 24 to 31
      sll r1,24,r1
      srl r1,40,r1       # bytes 26, 27 and 28
      lda r2,2(r31)
      sll r2,16,r2
      addq r2,192,r2     # 192, 0, 2 as a little-endian number
      cmpeq r1,r2,r0
done: ret
