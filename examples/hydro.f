C     A fragment of hydrodynamics, after the first of the Livermore
C     loops: X is Q + Y*(R*Z10 + T*Z11), where Z10 and Z11 are Z ten and
C     eleven places further on. Here Z then moves halfway to X, and so
C     on for M steps of time. Numbers are in thousandths.
C
C     What a parallel compiler sees: both loops over K can be dealt out.
C     X is used where it is stored, since all arrays have one length. Z
C     goes eleven places down: where blocks have eleven places or more,
C     a processor needs Z from its right neighbour, and may not store it
C     before the left one has read it. So of two barriers in each step
C     one becomes a wait for the right neighbour, one for the left.
      PROGRAM HYDRO
      INTEGER N, M, Q, R, T
      PARAMETER (N = 400, M = 50)
      PARAMETER (Q = 50, R = 420, T = 310)
      INTEGER X(N+11), Y(N+11), Z(N+11)
C$DIST X(BLOCK)
C$DIST Y(BLOCK)
C$DIST Z(BLOCK)
      DO 10 K = 1, N
   10 Y(K) = 1000 + 3*K - 700*(3*K/700)
      DO 20 K = 1, N+11
   20 Z(K) = 2000 - 17*K + 900*(17*K/900)
      DO 50 IT = 1, M
      DO 30 K = 1, N
   30 X(K) = Q + Y(K)*((R*Z(K+10) + T*Z(K+11))/1000)/1000
      DO 40 K = 1, N
   40 Z(K) = (Z(K) + X(K))/2
   50 CONTINUE
      ISUM = 0
      DO 60 K = 1, N
   60 ISUM = ISUM + X(K)
      PRINT *, 'FIRST', X(1), X(2), X(3), X(4), X(5)
      PRINT *, 'LAST', X(N-4), X(N-3), X(N-2), X(N-1), X(N)
      PRINT *, 'SUM', ISUM
      END
