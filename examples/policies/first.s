# Policy table, accepted: returns the first quadword, if there is one.
      cmpult r31,r17,r1  # 0 < r17
      beq r1,done
      ldq r0,0(r16)
done: ret
