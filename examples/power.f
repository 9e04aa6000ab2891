C     Power iteration: a vector is multiplied by a matrix over and over
C     and turns into the direction that the matrix stretches most. The
C     matrix has 2 on its diagonal and 1 beside it, so what a step makes
C     of an element needs its two neighbours, and no element grows more
C     than fourfold: dividing by 4 keeps the numbers in size. Behind the
C     last step the sums before and behind it give the stretching; for a
C     long vector it comes near to 4.
C
C     What a parallel compiler sees: the first loop in a step is dealt
C     out with its sum and its private scalar. The vector itself needs
C     waits for neighbours alone. The sum is why a barrier stays in a
C     step: the processor that keeps it and sets it to 0 needs all parts
C     of it first. Before anybody adds to it, all wait for that one.
      PROGRAM POWER
      INTEGER N, M
      PARAMETER (N = 60, M = 40)
      INTEGER X(0:N+1), Y(N)
      X(0) = 0
      X(N+1) = 0
      DO 10 I = 1, N
   10 X(I) = 1000000*(3*I - 5*(3*I/5) + 1)
      ISUM = 0
      DO 20 I = 1, N
   20 ISUM = ISUM + X(I)
      DO 50 IT = 1, M
      IOLD = ISUM
      ISUM = 0
      DO 30 I = 1, N
      IV = (X(I-1) + 2*X(I) + X(I+1))/4
      Y(I) = IV
   30 ISUM = ISUM + IV
      DO 40 I = 1, N
   40 X(I) = Y(I)
   50 CONTINUE
      PRINT *, 'SUM BEFORE THE LAST STEP', IOLD
      PRINT *, 'A QUARTER OF THE SUM BEHIND IT', ISUM
      PRINT *, 'ENDS AND MIDDLE', X(1), X(N/2), X(N)
      END
