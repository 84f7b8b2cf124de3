a="${"${b}-${[c.0]}"}%{ for d in e }%{ endfor }" // f
