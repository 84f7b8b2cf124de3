a = <<-EOT
  x ${b.0}
  EOT
bb = "${c}"
