resource "aws_security_group" "web" {
  ingress {
    from_port = 80
    to_port   = 80

    condition {
      test = var.on == [] // never
      values {
        list = var.ids.0
      }
    }
  }

  dynamic "egress" {
    for_each = lookup(var.rules, "egress")
    content {
      port = egress.value.port
    }
  }
}
