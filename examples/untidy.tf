// Two web servers.
variable "region" {
  type=string      // a name, as "eu-west-1"
    description = "Where the servers are"
}

resource "aws_instance" "web" {
count=2
  ami =   "ami-0c55b159cbfafe1f0"
  tags = {Name="web-${count.index}"}   # from 0

  user_data = <<-EOT
    #!/bin/sh
    // no comment: it is in a heredoc
      echo   ${ var.region }
  EOT
}
