let
  fib = n: if n < 2 then n else fib (n - 1) + fib (n - 2);
  squares = builtins.genList (x: x * x) 10000;
in [
  (fib 18)
  (builtins.length squares)
  (builtins.foldl' (a: b: a + b) 0 squares)
  (builtins.concatStringsSep "," (map toString (builtins.genList (x: x) 300)))
]
