      PROGRAM ONE
      K = 20
      K = K*2 + 2
      PRINT *, 'K', K
      END
