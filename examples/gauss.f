C     Gauss's elimination. The matrix is the product of two triangles,
C     of which the lower one has ones on its diagonal and so has the
C     upper one: each pivot is 1, and nothing has to be divided. In the
C     end the lower triangle stands below the diagonal, without its
C     ones, and the upper one on it and above; both are compared with
C     what the matrix was made of.
C
C     What a parallel compiler sees: the loop over K has to go in order.
C     In each of its trips the rows below K are dealt out, in turn, and
C     the factor of a row is stored first in its trip: it is private, so
C     that no two rows share it. In front of the rows all wait for the
C     owner of row K alone, who has stored the pivot.
      PROGRAM GAUSS
      INTEGER N
      PARAMETER (N = 30)
      INTEGER A(N, N), L(N, N), U(N, N), PIVOT(N)
C$DIST A(CYCLIC,*)
C$DIST L(CYCLIC,*)
C$DIST U(CYCLIC,*)
C$DIST PIVOT(CYCLIC)
C     the lower triangle without its ones, and the upper one
      DO 10 I = 1, N
      DO 10 J = 1, N
      L(I, J) = 0
      U(I, J) = 0
      IF (J .LT. I) L(I, J) = 2*I + J*J - 5*((2*I + J*J)/5) - 2
      IF (J .GT. I) U(I, J) = I*I + 3*J - 7*((I*I + 3*J)/7) - 3
   10 IF (J .EQ. I) U(I, J) = 1
C     their product
      DO 30 I = 1, N
      DO 30 J = 1, N
      A(I, J) = U(I, J)
      DO 30 K = 1, N
   30 A(I, J) = A(I, J) + L(I, K)*U(K, J)
C     elimination
      DO 50 K = 1, N
      PIVOT(K) = A(K, K)
      DO 40 I = K+1, N
      M = A(I, K)
      DO 40 J = K+1, N
   40 A(I, J) = A(I, J) - M*A(K, J)
   50 CONTINUE
      NWRONG = 0
      ITRACE = 0
      DO 60 I = 1, N
      ITRACE = ITRACE + PIVOT(I)
      DO 60 J = 1, N
   60 NWRONG = NWRONG + MIN(1, MAX(A(I, J) - L(I, J) - U(I, J),
     1    L(I, J) + U(I, J) - A(I, J)))
      PRINT *, 'PIVOTS', ITRACE
      PRINT *, 'ROWS', A(2, 1), A(3, 1), A(N, 1), A(N, N-1), A(1, N)
      PRINT *, 'WRONG', NWRONG
      END
