C     The inner product of two lists of numbers, and their squared
C     lengths. By Cauchy and Schwarz the square of the first is at most
C     the product of the others, and the difference is a sum of squares
C     too, over all pairs of places; it is looked at on the first eight.
C
C     What a parallel compiler sees: a loop that only adds to a scalar
C     can be dealt out, since sums come to the same in any order. Each
C     processor adds up its own part, and adds that to the scalar once,
C     behind its last trip. IX and IY are stored first in each trip, so
C     each processor may have its own: they are private. The one that
C     has the last trip leaves their last values behind.
      PROGRAM DOT
      INTEGER N
      PARAMETER (N = 1000)
      INTEGER X(N), Y(N)
      DO 10 I = 1, N
      X(I) = 7*I - 19*(7*I/19) - 9
   10 Y(I) = 3*I + I*I - 23*((3*I + I*I)/23) - 11
      IXY = 0
      IXX = 0
      IYY = 0
      DO 20 I = 1, N
      IX = X(I)
      IY = Y(I)
      IXY = IXY + IX*IY
      IXX = IXX + IX*IX
   20 IYY = IYY + IY*IY
C     the difference on the first eight, both ways
      KXY = 0
      KXX = 0
      KYY = 0
      DO 30 I = 1, 8
      KXY = KXY + X(I)*Y(I)
      KXX = KXX + X(I)*X(I)
   30 KYY = KYY + Y(I)*Y(I)
      KD = 0
      DO 40 I = 1, 8
      DO 40 J = I, 8
   40 KD = KD + (X(I)*Y(J) - X(J)*Y(I))*(X(I)*Y(J) - X(J)*Y(I))
      KW = KXX*KYY - KXY*KXY - KD
      PRINT *, 'PRODUCT', IXY, 'LENGTHS', IXX, IYY
      PRINT *, 'LAST', IX, IY
      PRINT *, 'FIRST EIGHT', KXX*KYY - KXY*KXY
      PRINT *, 'WRONG', MIN(1, MAX(KW, -KW))
      END
