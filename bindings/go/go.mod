module recline

go 1.19
