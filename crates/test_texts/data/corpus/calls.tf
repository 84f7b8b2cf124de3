locals {
  none   = timestamp()
  many   = max(1, 2, 3)
  spread = max(var.numbers...)
  last   = max(1, 2,)
  scoped = provider::aws::arn_parse(var.arn)
  wide = merge(
    var.tags, // ours
    {
      Name = "${var.name}-${count.index}"
    },
  )
}
