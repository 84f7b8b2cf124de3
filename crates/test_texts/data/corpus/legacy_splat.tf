locals {
  ids    = aws_instance.web.*.id
  names  = aws_instance.web.*.tags.0
  others = aws_instance.web[*].tags.0
  after  = aws_instance.web.*.id[0].1
}
