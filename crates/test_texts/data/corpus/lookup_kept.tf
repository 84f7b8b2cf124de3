locals {
  sum    = lookup(a + b, "c")
  splat  = lookup(a.*.b, 0)
  full   = lookup(a[*].b, 0)
  spread = lookup(a...)
  pair   = lookup(a, b...)
  other  = core::lookup(a, b)
  noted  = lookup(a, /* why */ b)
  lines = lookup(
    a,
    b
  )
}
