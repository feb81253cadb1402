module mstverifier

go 1.18
