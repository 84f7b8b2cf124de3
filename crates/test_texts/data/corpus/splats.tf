output "ids" {
  description = "All ids"
  value       = aws_instance.web[*].network[*].id
}
output "tags" {
  description = "All tags"
  value       = aws_instance.web.*.tags.*.name
}
locals {
  at   = aws_instance.web[count.index % 2].name["key"].list[0]
  call = f(a)[0].b
  sub  = [1, 2, 3][1]
  obj  = { a = 1 }.a
  str  = "text"[0]
}
