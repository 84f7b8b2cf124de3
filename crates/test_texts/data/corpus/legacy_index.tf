locals {
  first = aws_instance.web.0.id
  both  = module.net.subnets.0.1
  deep  = var.matrix[0].1.2.name
}
