# A filter: the IP and ARP packets between 192.0.2.0/24 and 198.51.100.0/24, in either direction.
      lda r2,2(r31)
      sll r2,16,r2
      addq r2,192,r2     # 192, 0, 2 as a little-endian number
      lda r3,0x6433(r31)
      sll r3,8,r3
      addq r3,198,r3     # 198, 51, 100
      ldq r1,8(r16)      # bytes 8 to 15
      sll r1,16,r1
      srl r1,48,r1       # the Ethernet type, bytes 12 and 13
      ldq r4,24(r16)     # bytes 24 to 31
      ldq r6,32(r16)     # bytes 32 to 39
      cmpeq r1,0x08,r5   # 08 00
      bne r5,ip
      lda r5,0x608(r31)
      cmpeq r1,r5,r5     # 08 06
      beq r5,no          # neither IP nor ARP

      # ARP: the sender's address is in bytes 28 to 31, the target's in bytes 38 to 41.
      srl r6,48,r5       # bytes 38 and 39
      ldq r6,40(r16)     # bytes 40 to 47
      sll r4,8,r4
      srl r4,40,r4       # bytes 28, 29 and 30
      br join

      # IP: the source address is in bytes 26 to 29, the destination in bytes 30 to 33.
ip:   srl r4,48,r5       # bytes 30 and 31
      sll r4,24,r4
      srl r4,40,r4       # bytes 26, 27 and 28

      # r4 is the first network; the second is r5 and the lowest byte of r6.
join: and r6,255,r6
      sll r6,16,r6
      addq r5,r6,r5
      cmpeq r4,r2,r6
      cmpeq r5,r3,r7
      and r6,r7,r6       # from the first to the second
      cmpeq r4,r3,r4
      cmpeq r5,r2,r5
      and r4,r5,r4       # or back
      bis r4,r6,r0
      and r0,1,r0        # changes nothing, and shows that r0 is below 2
      ret
no:   lda r0,0(r31)
      ret
