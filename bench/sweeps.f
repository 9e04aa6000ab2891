C 200 Jacobi sweeps over 100,000 elements: 40,099,201 instances.
      PROGRAM SWEEPS
      INTEGER A(100000), B(100000)
      DO 10 I = 1, 100000
   10 A(I) = I
      DO 40 IT = 1, 200
      DO 20 I = 2, 99999
   20 B(I) = (A(I-1) + A(I) + A(I+1))/3
      DO 30 I = 2, 99999
   30 A(I) = B(I)
   40 CONTINUE
      PRINT *, A(2)
      END
