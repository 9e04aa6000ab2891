C     The product C of two square matrices A and B, column by column:
C     column J of C is the sum of A's columns, each times an element of
C     B's column J. The result is checked by a vector: C*V and A*(B*V)
C     have to be equal.
C
C     What a parallel compiler sees: the columns of C don't need each
C     other, so the loop over J can be dealt out, and who has column J
C     of B and C is alone in using it. But everybody reads all of A, so
C     everybody's part of A has to be stored before the product begins:
C     of the two barriers in front of it, one stays.
      PROGRAM MATMUL
      INTEGER N
      PARAMETER (N = 40)
      INTEGER A(N, N), B(N, N), C(N, N)
      INTEGER V(N), BV(N), ABV(N), CV(N)
C$DIST A(*,BLOCK)
C$DIST B(*,BLOCK)
C$DIST C(*,BLOCK)
      DO 10 J = 1, N
      V(J) = 1 + 3*J - 5*(3*J/5)
      DO 10 I = 1, N
      A(I, J) = I + 2*J - 11*((I + 2*J)/11) - 5
   10 B(I, J) = 3*I + J*J - 13*((3*I + J*J)/13) - 6
      DO 20 J = 1, N
      DO 20 I = 1, N
   20 C(I, J) = 0
      DO 30 J = 1, N
      DO 30 K = 1, N
      DO 30 I = 1, N
   30 C(I, J) = C(I, J) + A(I, K)*B(K, J)
C     C*V, B*V and A*(B*V)
      DO 40 I = 1, N
      CV(I) = 0
      BV(I) = 0
      DO 40 J = 1, N
      CV(I) = CV(I) + C(I, J)*V(J)
   40 BV(I) = BV(I) + B(I, J)*V(J)
      DO 50 I = 1, N
      ABV(I) = 0
      DO 50 J = 1, N
   50 ABV(I) = ABV(I) + A(I, J)*BV(J)
      NWRONG = 0
      DO 60 I = 1, N
   60 NWRONG = NWRONG + MIN(1, MAX(CV(I) - ABV(I), ABV(I) - CV(I)))
      ITRACE = 0
      DO 70 I = 1, N
   70 ITRACE = ITRACE + C(I, I)
      PRINT *, 'CORNERS', C(1, 1), C(N, 1), C(1, N), C(N, N)
      PRINT *, 'TRACE', ITRACE
      PRINT *, 'C*V', CV(1), CV(2), CV(N-1), CV(N)
      PRINT *, 'WRONG', NWRONG
      END
