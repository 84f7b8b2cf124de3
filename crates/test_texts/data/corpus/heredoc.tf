resource "aws_instance" "web" {
  user_data = <<EOT
#!/bin/sh
echo ${var.name} // not a comment
EOT
  other = <<-EOT
    a.0 "${b}" == []
      ${c.0}
    %{ if d ~}
    yes
    %{ else ~}
    no
    %{ endif ~}
  EOT
  end = 1
}
