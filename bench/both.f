C     Each processor takes what its neighbours had: 50,000 boundaries at
C     which each waits for both.
      PROGRAM BOTHS
      INTEGER P, M
      PARAMETER (P=4, M=50000)
      INTEGER A(0:2*P-1, 0:M)
C$DIST A(BLOCK,*)
      DO 10 K = 1, M
      DO 20 I = 1, 2*P-2
   20 A(I, K) = A(I-1, K-1) + A(I+1, K-1) + K
   10 CONTINUE
      PRINT *, A(0, M)
      END
