C Shallow water on a torus, in whole numbers: three sweeps over 13 arrays and their edges a step.
      PROGRAM SWIM
      PARAMETER (N = 32, M = 5)
      INTEGER U(N+1,N+1), V(N+1,N+1), P(N+1,N+1)
      INTEGER UNEW(N+1,N+1), VNEW(N+1,N+1), PNEW(N+1,N+1)
      INTEGER UOLD(N+1,N+1), VOLD(N+1,N+1), POLD(N+1,N+1)
      INTEGER CU(N+1,N+1), CV(N+1,N+1), Z(N+1,N+1), H(N+1,N+1)
      DO 10 J = 1, N+1
      DO 10 I = 1, N+1
      U(I,J) = I - J
      V(I,J) = I + J
      P(I,J) = 1000 + I*3 - J
      UOLD(I,J) = U(I,J)
      VOLD(I,J) = V(I,J)
   10 POLD(I,J) = P(I,J)
      DO 90 IT = 1, M
      DO 20 J = 1, N
      DO 20 I = 1, N
      CU(I+1,J) = (P(I+1,J)+P(I,J))*U(I+1,J)/2
      CV(I,J+1) = (P(I,J+1)+P(I,J))*V(I,J+1)/2
      Z(I+1,J+1) = (4*(V(I+1,J+1)-V(I,J+1))-4*(U(I+1,J+1)
     1 -U(I+1,J)))/100+P(I,J)+P(I+1,J)+P(I+1,J+1)+P(I,J+1)+1
   20 H(I,J) = P(I,J)+(U(I+1,J)*U(I+1,J)+U(I,J)*U(I,J)
     1 +V(I,J+1)*V(I,J+1)+V(I,J)*V(I,J))/4
      DO 30 J = 1, N
      CU(1,J) = CU(N+1,J)
      CV(N+1,J+1) = CV(1,J+1)
      Z(1,J+1) = Z(N+1,J+1)
   30 H(N+1,J) = H(1,J)
      DO 35 I = 1, N
      CU(I+1,N+1) = CU(I+1,1)
      CV(I,1) = CV(I,N+1)
      Z(I+1,1) = Z(I+1,N+1)
   35 H(I,N+1) = H(I,1)
      CU(1,N+1) = CU(N+1,1)
      CV(N+1,1) = CV(1,N+1)
      Z(1,1) = Z(N+1,N+1)
      H(N+1,N+1) = H(1,1)
      DO 40 J = 1, N
      DO 40 I = 1, N
      UNEW(I+1,J) = UOLD(I+1,J)+(Z(I+1,J+1)+Z(I+1,J))*(CV(I+1,J+1)
     1 +CV(I,J+1)+CV(I,J)+CV(I+1,J))/100-(H(I+1,J)-H(I,J))/10
      VNEW(I,J+1) = VOLD(I,J+1)-(Z(I+1,J+1)+Z(I,J+1))*(CU(I+1,J+1)
     1 +CU(I,J+1)+CU(I,J)+CU(I+1,J))/100-(H(I,J+1)-H(I,J))/10
   40 PNEW(I,J) = POLD(I,J)-(CU(I+1,J)-CU(I,J))/10
     1 -(CV(I,J+1)-CV(I,J))/10
      DO 50 J = 1, N
      UNEW(1,J) = UNEW(N+1,J)
      VNEW(N+1,J+1) = VNEW(1,J+1)
   50 PNEW(N+1,J) = PNEW(1,J)
      DO 55 I = 1, N
      UNEW(I+1,N+1) = UNEW(I+1,1)
      VNEW(I,1) = VNEW(I,N+1)
   55 PNEW(I,N+1) = PNEW(I,1)
      UNEW(1,N+1) = UNEW(N+1,1)
      VNEW(N+1,1) = VNEW(1,N+1)
      PNEW(N+1,N+1) = PNEW(1,1)
      DO 60 J = 1, N
      DO 60 I = 1, N
      UOLD(I,J) = U(I,J)+(UNEW(I,J)-2*U(I,J)+UOLD(I,J))/8
      VOLD(I,J) = V(I,J)+(VNEW(I,J)-2*V(I,J)+VOLD(I,J))/8
      POLD(I,J) = P(I,J)+(PNEW(I,J)-2*P(I,J)+POLD(I,J))/8
      U(I,J) = UNEW(I,J)
      V(I,J) = VNEW(I,J)
   60 P(I,J) = PNEW(I,J)
      DO 70 J = 1, N
      UOLD(N+1,J) = UOLD(1,J)
      VOLD(N+1,J) = VOLD(1,J)
      POLD(N+1,J) = POLD(1,J)
      U(N+1,J) = U(1,J)
      V(N+1,J) = V(1,J)
   70 P(N+1,J) = P(1,J)
      DO 75 I = 1, N
      UOLD(I,N+1) = UOLD(I,1)
      VOLD(I,N+1) = VOLD(I,1)
      POLD(I,N+1) = POLD(I,1)
      U(I,N+1) = U(I,1)
      V(I,N+1) = V(I,1)
   75 P(I,N+1) = P(I,1)
      UOLD(N+1,N+1) = UOLD(1,1)
      VOLD(N+1,N+1) = VOLD(1,1)
      POLD(N+1,N+1) = POLD(1,1)
      U(N+1,N+1) = U(1,1)
      V(N+1,N+1) = V(1,1)
      P(N+1,N+1) = P(1,1)
   90 CONTINUE
      PRINT *, P(1,1), U(2,2), V(3,3)
      END
