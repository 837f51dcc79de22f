module agent

go 1.19

require seccompbroker v0.0.0

replace seccompbroker => ../../../../examples/go
