\Problem name: 

Minimize
OBJROW: 0.12000 bran + 0.05000 lime + 0.18000 maize + 0.45000 soy
Subject To
calcium:  0.38000 lime + 0.00300 soy >= 1.20000
fibre:  0.12000 bran + 0.03000 maize + 0.07000 soy <= 7
protein:  0.15000 bran + 0.09000 maize + 0.44000 soy >= 18
total:  bran + lime + maize + soy = 100
Bounds
End
