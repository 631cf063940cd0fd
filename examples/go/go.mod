module libzk

go 1.19
