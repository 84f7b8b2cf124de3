locals {
  names = [for n in var.names : upper(n)]
  pairs = [for i, n in var.names : "${i}-${n}" if n != ""]
  map   = { for k, v in var.map : k => v }
  group = { for v in var.list : v.key => v.value... if v.on }
  set = {
    for k, v in var.map :
    k => "${v}"
    if v != null
  }
  first = [
    for n in lookup(var.all, "names") : n.0
  ]
}
