# A filter: the ICMP packets (over IP version 4) whose checksums are right. An IP header and an ICMP
# message each have a checksum that makes the one's complement sum of their 16-bit words FFFF; so the sum
# of both together, from byte 14 to the packet's end, is FFFF too. The zeros behind the message, and those
# that fill the last quadword, change nothing.
      lda r0,0(r31)
      ldq r1,8(r16)      # bytes 8 to 15
      sll r1,16,r2
      srl r2,48,r2       # the Ethernet type, bytes 12 and 13
      cmpeq r2,0x08,r2   # 08 00
      beq r2,done        # no IP packet
      ldq r2,16(r16)     # bytes 16 to 23
      srl r2,56,r2       # the protocol, byte 23
      cmpeq r2,1,r2
      beq r2,done        # no ICMP
      srl r1,48,r2       # r2 is the sum: first bytes 14 and 15
      lda r3,16(r31)     # r3 is the index of the next quadword

      # What holds at the head of the loop: the index is a multiple of 8, and the packet may be loaded.
      .inv (and (eq (band r3 7) 0) (all i (imp (and (ult i r17) (eq (band i 7) 0)) (rd (add r16 i)))))
loop: cmpult r3,r17,r4
      beq r4,fold        # behind the packet
      addq r16,r3,r4
      ldq r4,0(r4)
      sll r4,32,r5
      srl r5,32,r5       # its lower half
      srl r4,32,r4       # its higher half
      addq r2,r4,r2
      addq r2,r5,r2      # below 2^46 in the end
      addq r3,8,r3
      br loop

      # The sum's parts added to one another, until 16 bits are left.
fold: srl r2,32,r4
      sll r2,32,r2
      srl r2,32,r2
      addq r2,r4,r2      # below 2^33
      srl r2,16,r4
      sll r2,48,r2
      srl r2,48,r2
      addq r2,r4,r2      # below 2^18
      srl r2,16,r4
      sll r2,48,r2
      srl r2,48,r2
      addq r2,r4,r2      # at most FFFF + 3
      srl r2,16,r4
      sll r2,48,r2
      srl r2,48,r2
      addq r2,r4,r2
      lda r4,-1(r31)
      srl r4,48,r4       # FFFF
      cmpeq r2,r4,r0
done: ret
