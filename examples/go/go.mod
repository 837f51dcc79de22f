module seccompbroker

go 1.19
