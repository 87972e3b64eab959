# A filter: the TCP packets to port 80. The IP header may have options: its length is in the low half of
# byte 14, in units of four bytes, so the port's place isn't known before the packet is there.
      lda r0,0(r31)
      ldq r1,8(r16)      # bytes 8 to 15
      sll r1,16,r2
      srl r2,48,r2       # the Ethernet type, bytes 12 and 13
      cmpeq r2,0x08,r2   # 08 00
      beq r2,done        # no IP packet
      srl r1,52,r2
      and r2,15,r2       # the version, the high half of byte 14
      cmpeq r2,4,r2
      beq r2,done
      ldq r3,16(r16)     # bytes 16 to 23
      srl r3,56,r2       # the protocol, byte 23
      cmpeq r2,6,r2
      beq r2,done        # no TCP
      sll r3,16,r2
      srl r2,48,r2       # flags and fragment offset, bytes 20 and 21
      lda r3,-225(r31)   # all bits but the flags, the high three of byte 20
      and r2,r3,r2
      bne r2,done        # not the first fragment: no TCP header
      srl r1,48,r1
      and r1,15,r1       # the header's length, at most 15
      cmpult r1,5,r2
      bne r2,done
      sll r1,2,r1        # in bytes
      addq r1,16,r1      # the destination port stands 14 + 2 bytes behind
      and r1,248,r2      # the quadword that it is in
      cmpult r2,r17,r3   # it has to lie in the packet
      beq r3,done
      addq r16,r2,r2
      ldq r2,0(r2)
      and r1,4,r1
      sll r1,3,r1        # 0 or 32 bits to the right
      srl r2,r1,r2
      sll r2,48,r2
      srl r2,48,r2       # the port's two bytes
      lda r3,0x5000(r31) # 00 50, which is 80
      cmpeq r2,r3,r0
done: ret
