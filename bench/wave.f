C A wave that runs to the right: each step takes what a point and the one before it had. 4,000
C boundaries, at which each processor waits for its left neighbour.
      PROGRAM WAVE
      INTEGER N, M
      PARAMETER (N = 256, M = 4000)
      INTEGER A(0:N, 0:M)
C$DIST A(BLOCK,*)
      DO 10 I = 0, N
   10 A(I, 0) = 1000*I
      DO 30 K = 1, M
      DO 20 I = 1, N
   20 A(I, K) = (A(I-1, K-1) + 3*A(I, K-1))/4 + K
   30 CONTINUE
      PRINT *, A(1, M), A(N, M)
      END
