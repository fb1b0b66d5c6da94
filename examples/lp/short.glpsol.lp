\* Problem: Unknown *\

Minimize
 cost: + 2 first + 3 second

Subject To
 wanted: + first + second >= 60

Bounds
 0 <= first <= 30
 0 <= second <= 25

End
