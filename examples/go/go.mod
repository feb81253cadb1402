module example

go 1.18

require mst v0.0.0

replace mst => ../../bindings/go
