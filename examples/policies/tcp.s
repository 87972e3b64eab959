# Policy filter, accepted: selects TCP packets.
      ldq r1,16(r16)     # bytes 16 to 23
      srl r1,56,r1       # byte 23, the protocol
      cmpeq r1,6,r0
      ret
