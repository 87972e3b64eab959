# web.s for port 443, which isn't a source: 0xBB01 is more than `lda` takes. docs/FIRST-FILTER.md says what
# `pcc_view` shows of it.
      ldq r1,8(r16)      # bytes 8 to 15
      sll r1,16,r1       # without bytes 14 and 15
      srl r1,48,r1       # bytes 12 and 13, the Ethernet type
      cmpeq r1,0x08,r0   # 08 00: IP
      beq r0,done
      ldq r1,16(r16)     # bytes 16 to 23
      srl r1,56,r1       # byte 23, the protocol
      cmpeq r1,6,r0      # TCP
      beq r0,done
      ldq r1,32(r16)     # bytes 32 to 39
      sll r1,16,r1       # without bytes 38 and 39
      srl r1,48,r1       # bytes 36 and 37, the port where the header has 20 bytes
      lda r2,0xBB01(r31) # 01 BB: 443
      cmpeq r1,r2,r0
done: ret
