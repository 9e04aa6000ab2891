C Elimination on a matrix with a right side, columns dealt out in turn. Halves stand for the
C quotients, since divisors are constants.
      PROGRAM GAUSS
      PARAMETER (N = 16)
      INTEGER A(N,N), B(N)
C$DIST A(*,CYCLIC)
C$DIST B(CYCLIC)
      DO 10 J = 1, N
      DO 10 I = 1, N
   10 A(I,J) = 5*I + 3*J
      DO 15 I = 1, N
   15 B(I) = I
      DO 40 K = 1, N-1
      DO 20 I = K+1, N
   20 A(I,K) = A(I,K)/2
      DO 30 J = K+1, N
      DO 30 I = K+1, N
   30 A(I,J) = A(I,J) - A(I,K)*A(K,J)
      DO 35 I = K+1, N
   35 B(I) = B(I) - A(I,K)*B(K)
   40 CONTINUE
      PRINT *, A(N,N), B(N)
      END
