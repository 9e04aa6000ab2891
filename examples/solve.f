C     Solves L*LT*X = B, where L is lower triangular with ones on its
C     diagonal and LT is L turned over: forward substitution L*Y = B,
C     then backward substitution LT*X = Y. This is what is left to do
C     when a symmetric matrix has been factored. B is made from a known
C     X, and the solution is compared with it at the end.
C
C     What a parallel compiler sees: in both substitutions the loop over
C     K has to go in order, and in each of its trips the loop over I can
C     be dealt out. That loop grows shorter from trip to trip, so rows
C     are dealt out in turn rather than in blocks: everybody keeps a
C     part of it almost to the end. In front of it all that has to be
C     waited for is the owner of one element, who stores the next one
C     of Y or X.
      PROGRAM SOLVE
      INTEGER N
      PARAMETER (N = 100)
      INTEGER B(N), X(N), Y(N), KNOWN(N), V(N)
      INTEGER L(N, N)
C$DIST B(CYCLIC)
C$DIST X(CYCLIC)
C$DIST Y(CYCLIC)
C$DIST KNOWN(CYCLIC)
C$DIST V(CYCLIC)
C$DIST L(CYCLIC,*)
C     the matrix, with elements from -3 to 3, and the known solution
      DO 10 I = 1, N
      KNOWN(I) = 1 + I*I - 9*(I*I/9)
      DO 10 J = 1, I
   10 L(I, J) = 2*I + J*J - 7*((2*I + J*J)/7) - 3
      DO 20 I = 1, N
   20 L(I, I) = 1
C     V = LT*KNOWN and B = L*V
      DO 30 I = 1, N
      V(I) = 0
      DO 30 J = I, N
   30 V(I) = V(I) + L(J, I)*KNOWN(J)
      DO 40 I = 1, N
      B(I) = 0
      DO 40 J = 1, I
   40 B(I) = B(I) + L(I, J)*V(J)
C     forward, which leaves Y in B as well
      DO 60 K = 1, N
      Y(K) = B(K)
      DO 50 I = K+1, N
   50 B(I) = B(I) - L(I, K)*Y(K)
   60 CONTINUE
C     backward, from there; K counts the rows from the last one up
      DO 80 K = 1, N
      X(N+1-K) = B(N+1-K)
      DO 70 I = 1, N-K
   70 B(I) = B(I) - L(N+1-K, I)*X(N+1-K)
   80 CONTINUE
      NWRONG = 0
      DO 90 I = 1, N
   90 NWRONG = NWRONG + MIN(1, MAX(X(I) - KNOWN(I), KNOWN(I) - X(I)))
      PRINT *, 'Y', Y(1), Y(2), Y(3), Y(N-1), Y(N)
      PRINT *, 'X', X(1), X(2), X(3), X(N-1), X(N)
      PRINT *, 'WRONG', NWRONG
      END
