C Two loops of a million trips in one another, for the check of subscripts alone.
      PROGRAM CROSSD
      INTEGER A(1000000)
      DO 10 I = 1, 1000000
      DO 10 J = 1, 1000000
   10 A(J) = I
      END
