module nrbpf

go 1.19
