C     Gauss-Seidel relaxation of a square plate, twice: in the natural
C     order, where each point takes the new values above it and at its
C     left, in array A; and by wavefronts, one diagonal I+J = K after
C     the other, in array W. Both orders give the same numbers.
C
C     What a parallel compiler sees: in the natural order no loop can be
C     dealt out, since each point needs the one above and the one at its
C     left. On one diagonal no point needs another, so the loop over I
C     can be dealt out, and the work goes over the plate like a wave.
C     With rows in blocks a processor waits from diagonal to diagonal
C     for the one that has the rows above, and from sweep to sweep for
C     the one that has the rows below.
C
C     The diagonals grow up to I+J = N+1 and shrink behind it. Each half
C     has its own loop, because the bounds of a loop are affine; in the
C     second K counts from the longest diagonal on.
      PROGRAM SEIDEL
      INTEGER N, M
      PARAMETER (N = 24, M = 30)
      INTEGER A(0:N+1, 0:N+1), W(0:N+1, 0:N+1)
C$DIST A(BLOCK,*)
C$DIST W(BLOCK,*)
      DO 10 I = 0, N+1
      DO 10 J = 0, N+1
      A(I, J) = 4000*I - 1000*J
   10 W(I, J) = 4000*I - 1000*J
      DO 20 I = 1, N
      DO 20 J = 1, N
      A(I, J) = 0
   20 W(I, J) = 0
C     natural order
      DO 30 IT = 1, M
      DO 30 I = 1, N
      DO 30 J = 1, N
   30 A(I, J) = (A(I-1, J) + A(I+1, J) + A(I, J-1) + A(I, J+1))/4
C     wavefronts
      DO 60 IT = 1, M
      DO 40 K = 2, N+1
      DO 40 I = 1, K-1
   40 W(I,K-I) = (W(I-1,K-I)+W(I+1,K-I)+W(I,K-I-1)+W(I,K-I+1))/4
      DO 50 K = 1, N-1
      DO 50 I = K+1, N
   50 W(I,N+1+K-I) = (W(I-1,N+1+K-I) + W(I+1,N+1+K-I)
     &               + W(I,N+K-I) + W(I,N+2+K-I))/4
   60 CONTINUE
      NWRONG = 0
      ISUM = 0
      DO 70 I = 1, N
      DO 70 J = 1, N
      ISUM = ISUM + W(I, J)
   70 NWRONG = NWRONG + MIN(1, MAX(A(I,J) - W(I,J), W(I,J) - A(I,J)))
      PRINT *, 'CORNERS', W(1, 1), W(1, N), W(N, 1), W(N, N)
      PRINT *, 'MIDDLE', W(N/2, N/2), 'SUM', ISUM
      PRINT *, 'WRONG', NWRONG
      END
