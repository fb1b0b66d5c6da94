\* pipes *\
Maximize
flow: a_b + a_c
Subject To
node_b: a_b - b_d + c_b = 0
node_c: a_c - c_b - c_e + d_c = 0
node_d: b_d - d_c - d_f + e_d = 0.25
node_e: c_e - e_d - e_f = 0
Bounds
 a_b <= 16
 a_c <= 13
 b_d <= 12
 c_b = 1.125
 c_e <= 14
 d_c <= 9
 d_f <= 20
 e_d <= 7
 e_f <= 4
End
