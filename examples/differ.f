C     Tables of differences, after the Livermore loops "first
C     difference" and "first sum": row 0 has a polynomial's values, and
C     each row below has the differences of neighbours in the row above.
C     The polynomial has degree 5, so row 6 has nothing but zeros. Then
C     the values are made anew from the rows' first elements, by sums
C     alone, as Babbage's engine did, and compared.
C
C     What a parallel compiler sees: a difference needs the element at
C     its right of the row above, so each row can be dealt out in
C     blocks, with a wait for the right neighbour in front of the next
C     row. The way back is a sum where each element needs the one
C     before it: one processor does it, element by element.
      PROGRAM DIFFER
      INTEGER N, M
      PARAMETER (N = 1000, M = 6)
      INTEGER D(0:N, 0:M), E(0:N, 0:M)
C$DIST D(BLOCK,*)
C$DIST E(BLOCK,*)
      DO 10 I = 0, N
   10 D(I, 0) = ((((I - 7)*I + 4)*I - 3)*I + 2)*I + 41
      DO 20 K = 1, M
      DO 20 I = 0, N-K
   20 D(I, K) = D(I+1, K-1) - D(I, K-1)
      DO 30 K = 0, M
   30 E(0, K) = D(0, K)
C     the last row is constant; each other one is a sum of the one below
      DO 40 I = 1, N-M
   40 E(I, M) = E(0, M)
      DO 60 K = M-1, 0, -1
      DO 50 I = 1, N-K
   50 E(I, K) = E(I-1, K) + E(I-1, K+1)
   60 CONTINUE
      NWRONG = 0
      DO 70 I = 0, N
   70 NWRONG = NWRONG + MIN(1, MAX(D(I,0) - E(I,0), E(I,0) - D(I,0)))
      PRINT *, 'FIRST', D(0, 0), D(1, 0), D(2, 0), D(3, 0), D(4, 0)
      PRINT *, 'ROWS', D(0, 1), D(0, 2), D(0, 3), D(0, 4), D(0, 5)
      PRINT *, 'ZERO', D(0, M), D(N-M, M)
      PRINT *, 'LAST', D(N, 0), E(N, 0)
      PRINT *, 'WRONG', NWRONG
      END
