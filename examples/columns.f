C     The product C of two square matrices A and B, an element at a
C     time: each is an inner product of a row of A and a column of B,
C     which is added up in S and stored when it is complete. D is the
C     same product by columns, as in matmul.f, and they have to agree.
C
C     What a parallel compiler sees: every element of C goes through
C     one scalar, so its loops seem to need each other. But S is set to
C     0 in front of each inner product: whoever computes a column of C
C     can do it in an S of its own, so columns can be dealt out. That S
C     is set to 0 inside the loop over I; so that loop must make a trip
C     in each of J's.
      PROGRAM COLUMN
      INTEGER N
      PARAMETER (N = 30)
      INTEGER A(N, N), B(N, N), C(N, N), D(N, N), S
C$DIST A(*,BLOCK)
C$DIST B(*,BLOCK)
C$DIST C(*,BLOCK)
C$DIST D(*,BLOCK)
      DO 10 J = 1, N
      DO 10 I = 1, N
      A(I, J) = I + 2*J - 11*((I + 2*J)/11) - 5
      B(I, J) = 3*I + J*J - 13*((3*I + J*J)/13) - 6
   10 D(I, J) = 0
      DO 30 J = 1, N
      DO 30 I = 1, N
      S = 0
      DO 20 K = 1, N
   20 S = S + A(I, K)*B(K, J)
   30 C(I, J) = S
      DO 40 J = 1, N
      DO 40 K = 1, N
      DO 40 I = 1, N
   40 D(I, J) = D(I, J) + A(I, K)*B(K, J)
      NWRONG = 0
      DO 50 J = 1, N
      DO 50 I = 1, N
   50 NWRONG = NWRONG + MIN(1, MAX(C(I, J) - D(I, J),
     1   D(I, J) - C(I, J)))
      PRINT *, 'CORNERS', C(1, 1), C(N, 1), C(1, N), C(N, N)
      PRINT *, 'LAST SUM', S
      PRINT *, 'WRONG', NWRONG
      END
