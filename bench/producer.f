C     Each processor takes what one of them has made: 50,000 boundaries
C     at which all wait for that one.
      PROGRAM GIVES
      INTEGER P, M
      PARAMETER (P=4, M=50000)
      INTEGER X(M), A(P, 0:M)
C$DIST A(BLOCK,*)
      DO 10 K = 1, M
      X(K) = K
      DO 20 I = 1, P
   20 A(I, K) = A(I, K-1) + X(K)
   10 CONTINUE
      PRINT *, A(1, M)
      END
