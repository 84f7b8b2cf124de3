locals {
  zone  = lookup(var.zones, "a")
  deep  = lookup(lookup(var.zones, "a"), "b")
  three = lookup(var.zones, "a", "none")
  last  = lookup(var.zones, "c",)
}
