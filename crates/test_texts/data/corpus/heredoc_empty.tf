a = <<E
E
b = <<-MARK
  MARK
c = [<<ONE
one
ONE
, <<TWO
two
TWO
]
// end
