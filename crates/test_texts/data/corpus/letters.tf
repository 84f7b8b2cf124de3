locals {
  grüße = "Grüße, ${var.name} 👋" # Gruß
  größe = "${var.größe}" // Größe
  名前  = lookup(var.名前, "名") /* 名前 */
}
