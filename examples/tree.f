C     The sum and the greatest of N numbers by a tree: the numbers are
C     the leaves, node I stands above the nodes 2*I and 2*I+1, and node
C     1 is the root.
C
C     What a parallel compiler sees: a loop that adds all numbers to one
C     variable can be dealt out, but one that takes their maximum can't.
C     In the tree all nodes of one level can, so ten short steps come in
C     place of a thousand. The nodes of a level lie behind one another,
C     from N1 to N-1, then from N2 to N1-1, and so on, and are dealt out
C     in turn, so that everybody has a part of each level. Of the nodes
C     2*I and 2*I+1 most belong to others than node I does, so the
C     barrier between two levels stays: there are nine of them.
C
C     N may be set to any power of two. With fewer than 1024 leaves the
C     levels that are too many have no trips, with more the last loop
C     does what is left, in order.
      PROGRAM TREE
      INTEGER N
      PARAMETER (N = 1024)
      PARAMETER (N1 = N/2, N2 = N/4, N3 = N/8, N4 = N/16, N5 = N/32)
      PARAMETER (N6 = N/64, N7 = N/128, N8 = N/256, N9 = N/512)
      INTEGER S(2*N-1), MOST(2*N-1)
C$DIST S(CYCLIC)
C$DIST MOST(CYCLIC)
C     the leaves
      ISEED = 42
      DO 10 I = N, 2*N-1
      ISEED = 25173*ISEED + 13849
      ISEED = ISEED - 65536*(ISEED/65536)
      S(I) = ISEED - 32768
   10 MOST(I) = S(I)
C     the levels, from the leaves to the root
      DO 21 I = MAX(N1, 1), N-1
      S(I) = S(2*I) + S(2*I+1)
   21 MOST(I) = MAX(MOST(2*I), MOST(2*I+1))
      DO 22 I = MAX(N2, 1), N1-1
      S(I) = S(2*I) + S(2*I+1)
   22 MOST(I) = MAX(MOST(2*I), MOST(2*I+1))
      DO 23 I = MAX(N3, 1), N2-1
      S(I) = S(2*I) + S(2*I+1)
   23 MOST(I) = MAX(MOST(2*I), MOST(2*I+1))
      DO 24 I = MAX(N4, 1), N3-1
      S(I) = S(2*I) + S(2*I+1)
   24 MOST(I) = MAX(MOST(2*I), MOST(2*I+1))
      DO 25 I = MAX(N5, 1), N4-1
      S(I) = S(2*I) + S(2*I+1)
   25 MOST(I) = MAX(MOST(2*I), MOST(2*I+1))
      DO 26 I = MAX(N6, 1), N5-1
      S(I) = S(2*I) + S(2*I+1)
   26 MOST(I) = MAX(MOST(2*I), MOST(2*I+1))
      DO 27 I = MAX(N7, 1), N6-1
      S(I) = S(2*I) + S(2*I+1)
   27 MOST(I) = MAX(MOST(2*I), MOST(2*I+1))
      DO 28 I = MAX(N8, 1), N7-1
      S(I) = S(2*I) + S(2*I+1)
   28 MOST(I) = MAX(MOST(2*I), MOST(2*I+1))
      DO 29 I = MAX(N9, 1), N8-1
      S(I) = S(2*I) + S(2*I+1)
   29 MOST(I) = MAX(MOST(2*I), MOST(2*I+1))
      DO 30 I = N9-1, 1, -1
      S(I) = S(2*I) + S(2*I+1)
   30 MOST(I) = MAX(MOST(2*I), MOST(2*I+1))
C     the loop that the tree replaces
      ISUM = 0
      DO 40 I = N, 2*N-1
   40 ISUM = ISUM + S(I)
      PRINT *, 'LEAVES', N, 'FIRST', S(N), 'LAST', S(2*N-1)
      PRINT *, 'SUM', S(1), ISUM
      PRINT *, 'GREATEST', MOST(1)
      END
