policy = jsonencode(merge(<<-EOT
  { "a": ${jsonencode(b.0)} }
EOT
, { c = "${d}" })) // end
