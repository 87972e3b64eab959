# Policy tag, rejected: stores whatever the tag is.
      lda r2,1(r31)
      stq r2,8(r16)
      ret
