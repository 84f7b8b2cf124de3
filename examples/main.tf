// The web servers of one region.
variable "region" {
  type        = string
  description = "Where the servers stand"
}

resource "aws_instance" "web" {
  count         = 3 // one per zone
  ami           = "ami-0c55b159cbfafe1f0"
  instance_type = "t3.micro"

  tags = {
    Name = "web-${count.index}" # from 0
    Link = "https://example.com" /* "//" in a string is no comment */
  }

  user_data = <<-EOT
    #!/bin/sh
    // neither is this: it stands in a heredoc
    echo ${var.region}
  EOT
}
