c landmarks of the six nodes
p aux sp ss 2
s 3
s 6
