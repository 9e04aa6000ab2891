      PROGRAM JACOBI
      INTEGER N, M
      PARAMETER (N=8, M=2)
      INTEGER A(0:N+1), B(0:N+1)
      A(0) = 16
      DO 30 IT = 1, M
      DO 10 I = 1, N
   10 B(I) = (A(I-1)+A(I+1))/2
      DO 20 I = 1, N
   20 A(I) = B(I)
   30 CONTINUE
      PRINT *, A(1), A(2), A(3)
      END
