\Problem name: 

Minimize
OBJROW: rest
Subject To
sum:  rest -8 eights + 5 fives = 3
Bounds
rest <= 7
 rest Free
Integers
eights fives 
End
