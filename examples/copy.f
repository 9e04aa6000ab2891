C     A list, and another one with each element one higher: an element
C     is read by the processor that has stored it. copy.plan is a plan
C     for N from 1 to 7, with one proof for all of these values and no
C     wait at all.
      PROGRAM COPY
      INTEGER N
      PARAMETER (N = 6)
      INTEGER A(N), B(N)
      DO 10 I = 1, N
   10 A(I) = I
      DO 20 I = 1, N
   20 B(I) = A(I) + 1
      PRINT *, B(1)
      END
