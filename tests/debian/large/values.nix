# Some hundred thousand values: a tree of sets, sorted lists, strings and their groups.
let
  range = builtins.genList (x: x);
  next = seed: let it = seed * 1103515245 + 12345; in it - (it / 2147483648) * 2147483648;
  numbers = n: (builtins.foldl' (at: _: { seed = next at.seed; list = [ (next at.seed) at.list ]; }) { seed = 1; list = null; } (range n)).list;
  flat = list: map (x: x.value) (builtins.genericClosure {
    startSet = [{ key = 0; value = builtins.head list; rest = builtins.elemAt list 1; }];
    operator = x: if x.rest == null then [ ] else [{ key = x.key + 1; value = builtins.head x.rest; rest = builtins.elemAt x.rest 1; }];
  });
  tree = depth: if depth == 0 then { size = 1; } else rec {
    left = tree (depth - 1);
    right = tree (depth - 1);
    size = 1 + left.size + right.size;
  };
  leaves = t: if t ? left then leaves t.left ++ leaves t.right else [ t.size ];
  many = flat (numbers 20000);
  sorted = builtins.sort builtins.lessThan many;
  groups = builtins.groupBy (x: toString (x - (x / 97) * 97)) many;
  sets = builtins.listToAttrs (map (x: { name = "n${toString x}"; value = { inherit x; text = "v${toString (x * x)}"; }; }) (range 40000));
in {
  size = (tree 16).size;
  leaves = builtins.length (leaves (tree 14));
  lowest = map (k: builtins.elemAt sorted (k * 1000)) (range 20);
  groups = builtins.mapAttrs (_: builtins.length) groups;
  texts = builtins.hashString "sha256" (builtins.concatStringsSep "," (map (s: s.text) (builtins.attrValues sets)));
  renamed = builtins.hashString "sha256" (builtins.toJSON (builtins.mapAttrs (_: s: s // { text = builtins.replaceStrings [ "1" ] [ "one" ] s.text; }) sets));
}
