C     Prefix sums in blocks: S(I) is A(1) + A(2) + .. + A(I). Each block
C     of L elements is summed up alone, then the sums of the blocks are
C     summed up, and what stands in front of a block is added to each of
C     its elements. At the end the sums are compared with those of the
C     loop that a textbook would have.
C
C     What a parallel compiler sees: the textbook's loop needs at each
C     element the one before, so one processor does it all. In blocks
C     the first and the third part can be dealt out, and only the short
C     loop over the blocks' sums is left to one processor. That two
C     blocks don't overlap lies in the subscripts L*(K-1) + I with I
C     from 1 to L.
      PROGRAM PREFIX
      INTEGER L, NB, N
      PARAMETER (L = 256, NB = 16, N = L*NB)
      INTEGER A(N), S(N), FRONT(NB), PLAIN(N)
C     numbers from 0 to 65535 that look drawn by lot
      ISEED = 1995
      DO 10 I = 1, N
      ISEED = 25173*ISEED + 13849
      ISEED = ISEED - 65536*(ISEED/65536)
   10 A(I) = ISEED
C     each block alone
      DO 20 K = 1, NB
      S(L*(K-1) + 1) = A(L*(K-1) + 1)
      DO 20 I = 2, L
   20 S(L*(K-1) + I) = S(L*(K-1) + I - 1) + A(L*(K-1) + I)
C     what stands in front of each block
      FRONT(1) = 0
      DO 30 K = 2, NB
   30 FRONT(K) = FRONT(K-1) + S(L*(K-1))
      DO 40 K = 1, NB
      DO 40 I = 1, L
   40 S(L*(K-1) + I) = S(L*(K-1) + I) + FRONT(K)
C     the textbook's loop
      PLAIN(1) = A(1)
      DO 50 I = 2, N
   50 PLAIN(I) = PLAIN(I-1) + A(I)
      NWRONG = 0
      DO 60 I = 1, N
   60 NWRONG = NWRONG + MIN(1, MAX(S(I) - PLAIN(I), PLAIN(I) - S(I)))
      PRINT *, 'NUMBERS', A(1), A(2), A(3), A(N)
      PRINT *, 'SUMS', S(1), S(2), S(3), S(N)
      PRINT *, 'FRONT', FRONT
      PRINT *, 'WRONG', NWRONG
      END
