output "address" {
  value       = aws_instance.web.public_ip
  description = "Public address"
}

output "Names" {
  value = aws_instance.web[*].name
}

output "empty" {
  description = ""
  value       = []
}
