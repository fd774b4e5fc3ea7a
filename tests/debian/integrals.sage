# What Maxima works out within Sage, by ecl.
from sage.libs.ecl import ecl_eval
x, n = var('x n')
for k in range(1, 13):
    print(integrate(x^k * exp(-x) * sin(x), x))
    print(limit((1 + k / n)^n, n=oo), sum(n^k, n, 1, 20))
    print(factor(expand((x^2 + k * x - 1)^4)))
print(solve(x^3 - 6 * x^2 + 11 * x - 6 == 0, x))
print(desolve(diff(function('f')(x), x) + function('f')(x) - 1, function('f')(x), ivar=x))
print(ecl_eval("(loop for k below 300 sum (length (loop for i below 1000 collect (list i k))))"))
