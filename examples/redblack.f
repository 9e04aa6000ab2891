C     The deflection of a square membrane under two weights, by
C     relaxation in red-black order: the points are coloured like a
C     chessboard, and a sweep goes over all red points, where I+J is
C     even, and then over all black ones. A point becomes the mean of
C     its neighbours, plus a quarter of the weight on it. All edges are
C     held at 0.
C
C     What a parallel compiler sees: a red point has black neighbours
C     alone, so all red points can be done at once, and then all black
C     ones, although there is but one array. To see that, it has to know
C     that the odd numbers and the even ones have none in common: loops
C     have steps of 2, and over fractions the question has an answer
C     that isn't there over whole numbers. Columns lie in blocks, and
C     between the colours a processor waits for its neighbours.
C
C     N is even.
      PROGRAM REDBLK
      INTEGER N, M
      PARAMETER (N = 32, M = 50)
      INTEGER A(0:N+1, 0:N+1), F(0:N+1, 0:N+1)
C$DIST A(*,BLOCK)
C$DIST F(*,BLOCK)
      DO 10 J = 0, N+1
      DO 10 I = 0, N+1
      A(I, J) = 0
   10 F(I, J) = 0
      F(N/4, N/4) = 4000000
      F(3*N/4, N/2) = 1000000
      DO 60 IT = 1, M
C     red
      DO 20 J = 1, N-1, 2
      DO 20 I = 1, N-1, 2
   20 A(I, J) = (A(I-1,J) + A(I+1,J) + A(I,J-1) + A(I,J+1) + F(I,J))/4
      DO 30 J = 2, N, 2
      DO 30 I = 2, N, 2
   30 A(I, J) = (A(I-1,J) + A(I+1,J) + A(I,J-1) + A(I,J+1) + F(I,J))/4
C     black
      DO 40 J = 1, N-1, 2
      DO 40 I = 2, N, 2
   40 A(I, J) = (A(I-1,J) + A(I+1,J) + A(I,J-1) + A(I,J+1) + F(I,J))/4
      DO 50 J = 2, N, 2
      DO 50 I = 1, N-1, 2
   50 A(I, J) = (A(I-1,J) + A(I+1,J) + A(I,J-1) + A(I,J+1) + F(I,J))/4
   60 CONTINUE
      ISUM = 0
      DO 70 J = 1, N
      DO 70 I = 1, N
   70 ISUM = ISUM + A(I, J)
      PRINT *, 'UNDER THE WEIGHTS', A(N/4, N/4), A(3*N/4, N/2)
      PRINT *, 'MIDDLE', A(N/2, N/2), 'CORNERS', A(1, 1), A(N, N)
      PRINT *, 'MEAN', ISUM/(N*N)
      END
