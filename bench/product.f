C The product of two lower triangular matrices of 500 rows: 21,458,501 instances.
      PROGRAM PRODUC
      INTEGER A(500,500), B(500,500), C(500,500)
      DO 10 I = 1, 500
      DO 10 K = 1, 500
   10 A(I,K) = I
      DO 20 K = 1, 500
      DO 20 J = 1, 500
   20 B(K,J) = J
      DO 30 I = 1, 500
      DO 30 J = 1, I
      DO 30 K = J, I
   30 C(I,J) = C(I,J) + A(I,K)*B(K,J)
      PRINT *, C(500,1)
      END
