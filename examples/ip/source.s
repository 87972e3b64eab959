# A filter: all IP packets. The Ethernet type, bytes 12 and 13, is 08 00.
      ldq r1,8(r16)      # bytes 8 to 15 of the packet, byte 8 lowest
      sll r1,16,r1       # without bytes 14 and 15
      srl r1,48,r1       # bytes 12 and 13, as a little-endian number
      cmpeq r1,0x08,r0   # 08 00
      ret
