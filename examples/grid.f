C     A grid that fits a channel with a bump, after tomcatv: inner
C     points are moved until the grid is as smooth as its edges allow
C     (Winslow's equations). X and Y say where a point lies, a cell of
C     the straight grid being 10000 wide. A sweep finds by how much the
C     equations fail at each inner point, RX and RY, and moves it by a
C     part of that.
C
C     What a parallel compiler sees: thirteen scalars hold what a point
C     needs, so each point seems to need the one before it. But each of
C     them is stored before it is loaded, at each point: whoever moves
C     a column of points can have thirteen of its own, so columns can
C     be dealt out. They are stored inside the loop over I; so that
C     loop must make a trip in each of J's. Of other columns a point
C     needs the two beside it.
C
C     The channel is the same from its middle to both ends, and so has
C     to be its grid.
      PROGRAM GRID
      INTEGER N, M
      PARAMETER (N = 19, M = 30)
      INTEGER X(0:N+1, 0:N+1), Y(0:N+1, 0:N+1)
      INTEGER RX(N, N), RY(N, N)
      INTEGER XX, YX, XY, YY, A, B, C, PXX, QXX, PYY, QYY, PXY, QXY
C$DIST X(*,BLOCK)
C$DIST Y(*,BLOCK)
C$DIST RX(*,BLOCK)
C$DIST RY(*,BLOCK)
      DO 10 J = 0, N+1
      DO 10 I = 0, N+1
      X(I, J) = 10000*I
   10 Y(I, J) = 10000*J
C     the bump, on the lower edge
      DO 20 I = 1, N
   20 Y(I, 0) = 60*I*(N + 1 - I)
      DO 60 IT = 1, M
      DO 40 J = 1, N
      DO 40 I = 1, N
      XX = X(I+1, J) - X(I-1, J)
      YX = Y(I+1, J) - Y(I-1, J)
      XY = X(I, J+1) - X(I, J-1)
      YY = Y(I, J+1) - Y(I, J-1)
      A = (XY*XY + YY*YY)/4
      B = (XX*XX + YX*YX)/4
      C = (XX*XY + YX*YY)/8
      PXX = X(I+1, J) - 2*X(I, J) + X(I-1, J)
      QXX = Y(I+1, J) - 2*Y(I, J) + Y(I-1, J)
      PYY = X(I, J+1) - 2*X(I, J) + X(I, J-1)
      QYY = Y(I, J+1) - 2*Y(I, J) + Y(I, J-1)
      PXY = X(I+1, J+1) - X(I+1, J-1) - X(I-1, J+1) + X(I-1, J-1)
      QXY = Y(I+1, J+1) - Y(I+1, J-1) - Y(I-1, J+1) + Y(I-1, J-1)
      RX(I, J) = (A*PXX + B*PYY - C*PXY)/600000000
   40 RY(I, J) = (A*QXX + B*QYY - C*QXY)/600000000
      DO 50 J = 1, N
      DO 50 I = 1, N
      X(I, J) = X(I, J) + RX(I, J)
   50 Y(I, J) = Y(I, J) + RY(I, J)
   60 CONTINUE
C     the same from both ends
      NWRONG = 0
      DO 70 J = 1, N
      DO 70 I = 1, N
      LEAN = X(I, J) + X(N+1-I, J) - 10000*(N + 1)
      NWRONG = NWRONG + MIN(1, MAX(LEAN, -LEAN))
   70 NWRONG = NWRONG + MIN(1, MAX(Y(I, J) - Y(N+1-I, J),
     1   Y(N+1-I, J) - Y(I, J)))
      PRINT *, 'OVER THE BUMP', Y((N+1)/2, 0), Y((N+1)/2, 1),
     1   Y((N+1)/2, 2)
      PRINT *, 'LAST MOVE', RX(1, 1), RY(1, 1)
      PRINT *, 'WRONG', NWRONG
      END
