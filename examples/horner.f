      PROGRAM HORNER
      IX = 12
      IP = 2
      IP = IP*IX - 3
      IP = IP*IX + 0
      IP = IP*IX + 5
      IP = IP*IX - 7
      PRINT *, 'P', IX, IP
      IX = -12
      IP = 2
      IP = IP*IX - 3
      IP = IP*IX + 0
      IP = IP*IX + 5
      IP = IP*IX - 7
      PRINT *, 'P', IX, IP
      END
