-- Groebner bases, resolutions, factors, primes, Hilbert polynomials and lists.
R = QQ[a..f]
cyclic = ideal(a+b+c+d+e+f, a*b+b*c+c*d+d*e+e*f+f*a, a*b*c+b*c*d+c*d*e+d*e*f+e*f*a+f*a*b, a*b*c*d+b*c*d*e+c*d*e*f+d*e*f*a+e*f*a*b+f*a*b*c, a*b*c*d*e+b*c*d*e*f+c*d*e*f*a+d*e*f*a*b+e*f*a*b*c+f*a*b*c*d)
G = gens gb cyclic
print(numgens source G, dim cyclic, degree cyclic)
S = ZZ/32003[x_0..x_7]
curve = minors(2, matrix{{x_0..x_6}, {x_1..x_7}})
C = res curve
print betti C
print hilbertPolynomial(S^1/curve, Projective => false)
print toString apply(5, i -> rank HH_i C)
T = QQ[x,y,z]
print toString factor((x^6-y^6)*(x^4+y^4*z^2)*(x+y+z)^3)
print toString apply(decompose ideal(x*y-z^2, x^3-y^2*z), I -> (dim I, degree I))
M = random(ZZ^40, ZZ^40)
print(rank M, det M != 0)
M = matrix table(60, 60, (i, j) -> (i*j+i+j) % 17 + if i == j then 100 else 0)
print det M
print toString sum apply(60000, i -> #toString(i^2))
h = new MutableHashTable
scan(100000, i -> h#(i % 3000) = toString (i^3))
print(#h, h#77)
print toString take(sort apply(50000, i -> (i * 7919) % 50021), 10)
f = n -> if n < 2 then n else f(n-1) + f(n-2)
print f 20
