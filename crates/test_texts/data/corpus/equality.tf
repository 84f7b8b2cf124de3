locals {
  none  = var.list == []
  some  = var.list != []
  left  = [] == var.list
  lefts = [] != concat(a, b)
  plain = var.list == [1]
  space = var.list == [ ]
  note  = var.list == [ /* none */ ]
}
