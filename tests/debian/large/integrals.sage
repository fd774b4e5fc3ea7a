# Longer integrals, sums and factors by Maxima within Sage, beside lists of ecl's that stay.
from sage.libs.ecl import ecl_eval
x, n, a = var('x n a')
ecl_eval("(defvar cl-user::kept (loop for k below 1000000 collect (list k (* 1.5 k))))")
for k in range(1, 26):
    print(integrate(x^k * exp(-x) * sin(x), x))
    print(integrate(1 / (x^3 + k), x), limit((1 + k / n)^n, n=oo))
    print(factor(expand((x^2 + k * x - 1)^8)))
print(ecl_eval("(loop for k below 1000 sum (length (loop for i below 2000 collect (list i k))))"))
print(ecl_eval("(list (length cl-user::kept) (second (nth 777777 cl-user::kept)))"))
