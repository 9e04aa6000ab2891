C     Each processor takes what the one before it had: 50,000 boundaries
C     at which each waits for its left neighbour.
      PROGRAM LEFTS
      INTEGER P, M
      PARAMETER (P=4, M=50000)
      INTEGER A(2*P, 0:M)
C$DIST A(BLOCK,*)
      DO 10 K = 1, M
      DO 20 I = 2, 2*P
   20 A(I, K) = A(I-1, K-1) + K
   10 CONTINUE
      PRINT *, A(1, M)
      END
