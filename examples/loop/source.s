# A filter that branches to itself, with the invariant "true" at its index.
      .inv tt
loop: br loop
