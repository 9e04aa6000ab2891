C     The temperature of a square plate by Jacobi's method: in each
C     sweep every inner point becomes the mean of its four neighbours,
C     as they were before the sweep. The upper edge is held at 100
C     degrees, the others at 0; the unit is a thousandth of a degree.
C
C     What a parallel compiler sees: in both loops over the points no
C     iteration needs another one, so columns can be dealt out. A point
C     needs no column but its own and the two beside it, so where
C     columns lie in blocks, no processor has to wait for others than
C     its neighbours, before and behind the copy of B to A.
C
C     N, the inner points along an edge, and M, the sweeps, may be set.
      PROGRAM JACOBI
      INTEGER N, M
      PARAMETER (N = 20, M = 200)
      INTEGER A(0:N+1, 0:N+1), B(0:N+1, 0:N+1)
C$DIST A(*,BLOCK)
C$DIST B(*,BLOCK)
      DO 10 J = 0, N+1
      A(0, J) = 100000
      DO 10 I = 1, N+1
   10 A(I, J) = 0
      DO 40 IT = 1, M
      DO 20 J = 1, N
      DO 20 I = 1, N
   20 B(I, J) = (A(I-1, J) + A(I+1, J) + A(I, J-1) + A(I, J+1))/4
      DO 30 J = 1, N
      DO 30 I = 1, N
   30 A(I, J) = B(I, J)
   40 CONTINUE
      ISUM = 0
      DO 50 J = 1, N
      DO 50 I = 1, N
   50 ISUM = ISUM + A(I, J)
      PRINT *, 'SWEEPS', M, 'POINTS', N*N
      PRINT *, 'MIDDLE OF THE PLATE', A((N+1)/2, (N+1)/2)
      PRINT *, 'BELOW THE UPPER EDGE', A(1, 1), A(1, (N+1)/2), A(1, N)
      PRINT *, 'MEAN', ISUM/(N*N)
      END
