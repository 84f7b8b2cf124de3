variable "size" {
  type        = number
  description = "How many"

  validation {
    condition     = var.size > 0 && var.size <= 10 || var.size == 100
    error_message = "Between 1 and 10, or 100; not ${var.size}."
  }
}

output "size" {
  value     = var.size
  sensitive = true
}
