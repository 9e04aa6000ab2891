C     Heat on a ring of N points: at the left of point 1 lies point N,
C     and at the right of point N point 1. Logical IFs choose the
C     neighbours. What flows between two neighbours is rounded once and
C     taken from one and given to the other, so no heat is lost.
C
C     What a parallel compiler sees: under an IF an access takes place
C     where its comparison holds, and nowhere else. A compiler that
C     looks at the accesses alone finds A(0) out of range. With points
C     in blocks neighbours wait for neighbours, but for the seam: the
C     first processor needs the last one's end of the ring, so waits for
C     neighbours alone don't do.
      PROGRAM RING
      INTEGER N, M
      PARAMETER (N = 120, M = 300)
      INTEGER A(N), FLOW(N)
C$DIST A(BLOCK)
C$DIST FLOW(BLOCK)
      DO 10 I = 1, N
      A(I) = 0
   10 IF (I .LE. N/8) A(I) = 1000000
      NBEGUN = 0
      DO 20 I = 1, N
   20 NBEGUN = NBEGUN + A(I)
      DO 50 IT = 1, M
C     FLOW(I) goes from the left neighbour of point I to point I
      DO 30 I = 1, N
      IF (I .EQ. 1) FLOW(I) = (A(N) - A(I))/3
   30 IF (I .GT. 1) FLOW(I) = (A(I-1) - A(I))/3
      DO 40 I = 1, N
      IF (I .LT. N) A(I) = A(I) + FLOW(I) - FLOW(I+1)
   40 IF (I .GE. N) A(I) = A(I) + FLOW(I) - FLOW(1)
   50 CONTINUE
      NTOTAL = 0
      DO 60 I = 1, N
   60 NTOTAL = NTOTAL + A(I)
      PRINT *, 'TOTAL', NBEGUN, NTOTAL
      PRINT *, 'AT THE SEAM', A(N-1), A(N), A(1), A(2)
      PRINT *, 'OPPOSITE', A(N/2), 'IN THE WARM PART', A(N/16)
      END
