C     A list and its elements in opposite order: everybody reads what
C     another processor has stored, but for the middle. The walk in
C     docs/PLANS.md, "A plan by hand", has a plan for it, and
C     mirror.plan is that plan.
      PROGRAM MIRROR
      INTEGER A(6), B(6)
      DO 10 I = 1, 6
   10 A(I) = I
      DO 20 I = 1, 6
   20 B(I) = A(7-I)
      PRINT *, B(1)
      END
