module mst

go 1.18
