a="%{ if b ~}${c.0}\n\u00e9%{ else }$${%{ endif }" // d
