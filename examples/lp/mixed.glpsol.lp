\* Problem: Unknown *\

Maximize
 profit: + 7 boxes + 2.4 loose - 1.5 shift

Subject To
 balance: + boxes - 3 shift >= 6
 weight: + 2.5 boxes + loose + shift <= 33.3
 work: + boxes + 3 shift <= 9.5

Bounds
 0 <= boxes <= 20
 0 <= loose <= 9.75
 -4 <= shift <= 4

Generals
 boxes
 shift

End
