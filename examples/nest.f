      SUBROUTINE NEST(N)
C$ INPUT (DEFINED N) (ZLEQ 1 N) (ZLEQ N 100)
C$ OUTPUT T
      I = N
      J = N
C$ ASSERT (DEFINED I) (ZLEQ 1 I) (ZLEQ I 100)
C$+ (DEFINED J) (ZLEQ 1 J) (ZLEQ J 100) CLOCK I J
   10 IF (J .EQ. 1) GO TO 20
      J = J - 1
      GO TO 10
   20 IF (I .EQ. 1) RETURN
      I = I - 1
      J = N
      GO TO 10
      END
