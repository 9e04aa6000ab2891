C Back substitution, column by column, all dealt out in turn. Halves stand for the quotients.
      PROGRAM BCKSUB
      PARAMETER (N = 16)
      INTEGER A(N,N), B(N), X(N)
C$DIST A(*,CYCLIC)
C$DIST B(CYCLIC)
C$DIST X(CYCLIC)
      DO 10 J = 1, N
      DO 10 I = 1, N
   10 A(I,J) = 5*I + 3*J
      DO 15 I = 1, N
   15 B(I) = I
      DO 40 K = N, 1, -1
      X(K) = B(K)/2
      DO 30 I = 1, K-1
   30 B(I) = B(I) - A(I,K)*X(K)
   40 CONTINUE
      PRINT *, X(1)
      END
