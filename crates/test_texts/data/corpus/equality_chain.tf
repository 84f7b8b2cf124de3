locals {
  chain = a == b == []
  both  = [] == []
  twice = x == [] == []
  where = c ? a == [] : b != []
  inner = [for x in xs : x if x.list != []]
}
