R = QQ[x,y,z]
I = ideal(x^3-y^2*z, x*y-z^2, x^2+y^2+z^2-1)
print gens gb I
print dim I
print toString apply(20, i -> i^2)
print toString sum apply(3000, i -> #toString i)
