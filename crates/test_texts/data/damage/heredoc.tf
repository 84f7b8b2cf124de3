a = <<-E
 x ${b.0}
  E
c=1 // d
