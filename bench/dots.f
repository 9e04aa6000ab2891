C Inner products of two vectors, one after another: a sum and a barrier each time.
      PROGRAM DOTS
      INTEGER N, M
      PARAMETER (N = 100000, M = 400)
      INTEGER X(N), Y(N)
      DO 10 I = 1, N
      X(I) = I
   10 Y(I) = N - I
      DO 30 K = 1, M
      DO 20 I = 1, N
   20 ISUM = ISUM + X(I)*Y(I)
      X(K) = ISUM
   30 CONTINUE
      PRINT *, ISUM
      END
