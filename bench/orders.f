C Its systems take elimination in one order 172 million combinations of rows, and a quick look few.
      PROGRAM ORDERS
      INTEGER A(-3:11,-3:10)
C$DIST A(BLOCK,*)
      DO 10 I = 1, 5
      DO 20 J = -1, -1
      DO 30 K = -J, 4, 2
   30 A(-2+2*J+K, 3-K) = 1
   20 A(2*I+J, -1+J) = A(2+J, 2*I)
      DO 40 L = -1, I
   40 A(-2+L, 1+L) = A(-2+L, 2*L)
   10 CONTINUE
      PRINT *, A(1,1)
      END
